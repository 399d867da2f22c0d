/* A stand-in for what is proved of the gate, as far as drawn.c goes: so that the thread sanitizer sees for itself how the part
 * of the library that is C draws the numbers of gates. A handle has the number and the start in its pointer's place. */
#include "percpu_gate.h"

#undef percpu_gate_try_get
#undef percpu_gate_put

struct gate_number { uint64_t counter, drawn; };

uint32_t percpu_gate_new_numbered(percpu_gate_control *control, const struct gate_number *number, uint32_t slots,
                                  uint32_t passes, uint32_t start, const uint64_t words[8]);

uint32_t percpu_gate_new_numbered(percpu_gate_control *control, const struct gate_number *number, uint32_t slots,
                                  uint32_t passes, uint32_t start, const uint64_t words[8])
{
    (void)words;
    control->is_open = slots == 1 && passes == 1;
    control->at = (void *)(uintptr_t)(number->drawn * 4 + start);
    return PERCPU_GATE_OK;
}

percpu_gate_answer percpu_gate_next_pass(percpu_gate_control *control, percpu_gate_pass *pass)
{
    pass->is_open = true;
    pass->at = control->at;
    return PERCPU_GATE_OK;
}

uint64_t percpu_gate_control_number(percpu_gate_control *control) { return (uintptr_t)control->at / 4; }
uint64_t percpu_gate_pass_number(percpu_gate_pass *pass) { return (uintptr_t)pass->at / 4; }

percpu_gate_answer percpu_gate_try_get(percpu_gate_pass *pass, uint32_t slot)
{
    return slot == 0 && (uintptr_t)pass->at % 4 == PERCPU_GATE_START_DEAD ? PERCPU_GATE_NOT_GIVEN : PERCPU_GATE_OK;
}

percpu_gate_answer percpu_gate_put(percpu_gate_pass *pass, uint32_t slot, uint32_t n)
{
    return pass->is_open && slot == 0 && n == 1 ? PERCPU_GATE_OK : PERCPU_GATE_ERR_NOT_HELD;
}

percpu_gate_answer percpu_gate_retire(percpu_gate_control *control, percpu_gate_pass *pass)
{
    pass->is_open = false;
    return control->is_open ? PERCPU_GATE_OK : PERCPU_GATE_ERR_CLOSED;
}

percpu_gate_answer percpu_gate_exit(percpu_gate_control *control, percpu_gate_final *last)
{
    control->is_open = last->dead = false;
    return PERCPU_GATE_OK;
}
