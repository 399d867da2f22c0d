/* What of the library is C: the number that tells a gate from others, and texts. Nothing of it is proved. */
#include "percpu_gate.h"

#include <stdatomic.h>

/* The place of a counter, and what it drew. No counter draws a number twice, and no two lie at one place. */
struct gate_number { uint64_t counter, drawn; };

percpu_gate_answer percpu_gate_new_numbered(percpu_gate_control *control, const struct gate_number *number, uint32_t slots,
                                            uint32_t passes, uint32_t start, const uint64_t words[8]);

percpu_gate_answer percpu_gate_new(percpu_gate_control *control, uint32_t slots, uint32_t passes, uint32_t start,
                                   const uint64_t words[8])
{
    static _Atomic uint64_t counter;
    const struct gate_number number = {(uint64_t)(uintptr_t)&counter, atomic_fetch_add(&counter, 1) + 1};
    return percpu_gate_new_numbered(control, &number, slots, passes, start, words);
}

const char *percpu_gate_version(void) { return PERCPU_GATE_VERSION; }

const char *percpu_gate_text(percpu_gate_answer answer)
{
    switch (answer) {
    case PERCPU_GATE_OK: return "done";
    case PERCPU_GATE_LAST: return "done, and the last reference is gone";
    case PERCPU_GATE_NOT_GIVEN: return "no reference is given";
    case PERCPU_GATE_NOT_GIVEN_LAST: return "no reference is given, and the last one is gone";
    case PERCPU_GATE_WAS_AT_ZERO: return "revived, and no reference was held";
    case PERCPU_GATE_ERR_ALREADY_DEAD: return "the gate is dead already";
    case PERCPU_GATE_ERR_NOT_DEAD: return "the gate isn't dead";
    case PERCPU_GATE_ERR_NOT_ZERO: return "references are held";
    case PERCPU_GATE_ERR_MID_SWITCH: return "a kill is under way";
    case PERCPU_GATE_ERR_WORN_OUT: return "the gate was killed 2^40 times";
    case PERCPU_GATE_ERR_PASSES_OUT: return "passes aren't retired";
    case PERCPU_GATE_ERR_CLOSED: return "the handle is closed";
    case PERCPU_GATE_ERR_OPEN: return "the handle is open";
    case PERCPU_GATE_ERR_BAD_SLOT: return "no such slot";
    case PERCPU_GATE_ERR_HELD_FULL: return "the pass would hold more than 65535 references";
    case PERCPU_GATE_ERR_NOT_HELD: return "the pass doesn't hold as many references";
    case PERCPU_GATE_ERR_BAD_AMOUNT: return "no reference is asked for";
    case PERCPU_GATE_ERR_BAD_WORD: return "no such guarded word";
    case PERCPU_GATE_ERR_BAD_STEP: return "another step of a kill is due";
    case PERCPU_GATE_ERR_STILL_HELD: return "the pass holds references";
    case PERCPU_GATE_ERR_OTHER_GATE: return "the pass is of another gate";
    case PERCPU_GATE_ERR_BAD_SIZE: return "no gate has this size or start";
    case PERCPU_GATE_ERR_NO_PASS: return "every pass was given out";
    case PERCPU_GATE_ERR_NO_MEMORY: return "no memory";
    case PERCPU_GATE_ERR_IN_USE: return "the gate is in use";
    default: return "no answer of a gate";
    }
}
