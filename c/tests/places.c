/* Sizes and offsets of the structs, and the order of arguments: each call that takes several numbers is given another in
 * each place, and each field that is written is read. No contract of the library has these. */
#include "percpu_gate.h"
#include "is.h"

#include <stddef.h>
#include <stdio.h>
#include <string.h>

#define IS(value, want) is(#value, value, want, __LINE__)

static const uint64_t words[8] = {11, 12, 13, 14, 15, 16, 17, 18};

/* What a call writes lies between bytes that it leaves alone. */
static void fields_of_final(percpu_gate_control *control)
{
    struct { uint64_t before; percpu_gate_final last; uint64_t after; } room;
    memset(&room, 0xa5, sizeof room);
    IS(percpu_gate_exit(control, &room.last), PERCPU_GATE_OK);
    IS(room.last.dead, 1);
    IS(room.last.kills, 3);
    IS(room.last.releases, 2);
    IS(memcmp(room.last.words, words, sizeof words), 0);
    IS(room.before, 0xa5a5a5a5a5a5a5a5u);
    IS(room.after, 0xa5a5a5a5a5a5a5a5u);
}

/* Three kills, of which two reach zero. */
static void kills(percpu_gate_control *control, percpu_gate_pass *pass)
{
    uint64_t told = 0;
    IS(percpu_gate_kill(control), PERCPU_GATE_OK);
    IS(percpu_gate_resurrect(control), PERCPU_GATE_OK);
    IS(percpu_gate_put(pass, 1, 4), PERCPU_GATE_OK);
    IS(percpu_gate_kill(control), PERCPU_GATE_LAST);
    IS(percpu_gate_reinit(control), PERCPU_GATE_OK);
    IS(percpu_gate_kill(control), PERCPU_GATE_LAST);
    IS(percpu_gate_store_word(control, 3, 5), PERCPU_GATE_OK);
    IS(percpu_gate_kill_count(control, &told), PERCPU_GATE_OK);
    IS(told, 3);
    IS(percpu_gate_release_count(control, &told), PERCPU_GATE_OK);
    IS(told, 2);
}

static void words_and_values(percpu_gate_control *control)
{
    uint64_t all[10] = {7, 0, 0, 0, 0, 0, 0, 0, 0, 7};
    IS(percpu_gate_all_words(control, all + 1), PERCPU_GATE_OK);
    for (int k = 0; k < 8; k++)
        IS(all[k + 1], k == 3 ? 5 : words[k]);
    IS(all[0], 7);
    IS(all[9], 7);
    IS(percpu_gate_store_word(control, 3, words[3]), PERCPU_GATE_OK);
}

int main(void)
{
    percpu_gate_control control = {0};
    percpu_gate_pass pass[3] = {{0}, {0}, {0}};
    HANDLE_IS_LAID_OUT(percpu_gate_control);
    HANDLE_IS_LAID_OUT(percpu_gate_pass);
    FINAL_IS_LAID_OUT(percpu_gate_final, 88);
    IS(offsetof(percpu_gate_final, words), 24);
    /* three slots, two passes, on the shared word alone */
    IS(percpu_gate_new(&control, 3, 2, PERCPU_GATE_START_ATOMIC, words), PERCPU_GATE_OK);
    IS(control.is_open, 1);
    IS(control.at != NULL, 1);
    IS(percpu_gate_phase(&control), PERCPU_GATE_PHASE_LIVE_ATOMIC);
    IS(percpu_gate_next_pass(&control, &pass[0]), PERCPU_GATE_OK);
    IS(percpu_gate_next_pass(&control, &pass[1]), PERCPU_GATE_OK);
    IS(percpu_gate_next_pass(&control, &pass[2]), PERCPU_GATE_ERR_NO_PASS);
    IS(pass[0].is_open, 1);
    IS(pass[0].at != NULL, 1);
    IS(pass[2].is_open, 0);
    IS(percpu_gate_try_get_live(&pass[1], 3), PERCPU_GATE_ERR_BAD_SLOT);
    IS(percpu_gate_try_get(&pass[0], 2), PERCPU_GATE_OK);
    IS(percpu_gate_get(&pass[0], 1, 3), PERCPU_GATE_OK);
    for (uint32_t k = 0; k < 8; k++) {
        uint64_t word = 0;
        IS(percpu_gate_word(&pass[0], k, &word), PERCPU_GATE_OK);
        IS(word, words[k]);
    }
    kills(&control, &pass[0]);
    words_and_values(&control);
    IS(percpu_gate_retire(&control, &pass[0]), PERCPU_GATE_OK);
    IS(percpu_gate_retire(&control, &pass[1]), PERCPU_GATE_OK);
    IS(pass[1].is_open, 0);
    IS(pass[1].at == NULL, 1);
    fields_of_final(&control);
    IS(control.is_open, 0);
    return failures != 0;
}
