/* One program over both libraries: a gate that guards the device, and a queue before it. */
#include "freeze_queue.h"
#include "percpu_gate.h"

#include <stdio.h>
#include <string.h>

int main(void)
{
    static const uint64_t words[PERCPU_GATE_WORD_COUNT];
    percpu_gate_control control = {0};
    percpu_gate_pass pass = {0};
    percpu_gate_final left;
    freeze_queue freezer = {0};
    freeze_queue_tag tag = {0};
    freeze_queue_final last;
    uint32_t depth;
    if (percpu_gate_new(&control, 1, 1, PERCPU_GATE_START_SLOTS, words) || percpu_gate_next_pass(&control, &pass) ||
        freeze_queue_new(&freezer, &(freeze_queue_limits){8, 0, 0, 1}, 1, 1) || freeze_queue_next_tag(&freezer, &tag))
        return 1;
    if (percpu_gate_try_get_live(&pass, 0) || freeze_queue_try_enter(&tag, 0) || percpu_gate_kill(&control) ||
        freeze_queue_start_freeze(&freezer, &depth))
        return 2;
    if (!percpu_gate_is_last(percpu_gate_put(&pass, 0, 1)) || !freeze_queue_is_drained(freeze_queue_leave(&tag, 0)))
        return 3;
    if (percpu_gate_control_number(&control) != 1 || freeze_queue_number(&freezer) != 1)
        return 4; /* each library counts its own */
    if (percpu_gate_retire(&control, &pass) || percpu_gate_exit(&control, &left) ||
        freeze_queue_give_tag_back(&freezer, &tag) || freeze_queue_remove(&freezer, &last))
        return 5;
    if (strcmp(percpu_gate_version(), PERCPU_GATE_VERSION) != 0 || strcmp(freeze_queue_version(), FREEZE_QUEUE_VERSION) != 0)
        return 6;
    printf("%s, %s\n", percpu_gate_text(PERCPU_GATE_LAST), freeze_queue_text(FREEZE_QUEUE_LAST));
    return 0;
}
