/* The calls for the thread sanitizer. A part of percpu_gate.h, which includes it in code that is compiled for that. */
#ifndef PERCPU_GATE_H
#error "include percpu_gate.h"
#endif
#ifndef PERCPU_GATE_TSAN_H
#define PERCPU_GATE_TSAN_H

void __tsan_acquire(void *at);
void __tsan_release(void *at);

/* One address for each gate, in all files. Gates whose numbers are 256 apart share one. */
__attribute__((weak)) uint64_t percpu_gate_orders[256];
static inline void *percpu_gate_order_of_pass(percpu_gate_pass *pass)
{
    return &percpu_gate_orders[percpu_gate_pass_number(pass) % 256];
}
static inline void *percpu_gate_order_of_control(percpu_gate_control *control)
{
    return &percpu_gate_orders[percpu_gate_control_number(control) % 256];
}
static inline percpu_gate_answer percpu_gate_acquires(bool sees, void *order, percpu_gate_answer answer)
{
    if (sees)
        __tsan_acquire(order);
    return answer;
}

PERCPU_GATE_MUST_USE static inline percpu_gate_answer percpu_gate_ordered_try_get(percpu_gate_pass *pass, uint32_t slot)
{
    void *order = percpu_gate_order_of_pass(pass);
    percpu_gate_answer answer = percpu_gate_try_get(pass, slot);
    return percpu_gate_acquires(answer == PERCPU_GATE_OK || answer == PERCPU_GATE_NOT_GIVEN_LAST, order, answer);
}
PERCPU_GATE_MUST_USE static inline percpu_gate_answer percpu_gate_ordered_try_get_live(percpu_gate_pass *pass, uint32_t slot)
{
    void *order = percpu_gate_order_of_pass(pass);
    percpu_gate_answer answer = percpu_gate_try_get_live(pass, slot);
    return percpu_gate_acquires(answer == PERCPU_GATE_OK || answer == PERCPU_GATE_NOT_GIVEN_LAST, order, answer);
}
PERCPU_GATE_MUST_USE static inline percpu_gate_answer percpu_gate_ordered_put(percpu_gate_pass *pass, uint32_t slot, uint32_t n)
{
    void *order = percpu_gate_order_of_pass(pass);
    __tsan_release(order);
    percpu_gate_answer answer = percpu_gate_put(pass, slot, n);
    return percpu_gate_acquires(answer == PERCPU_GATE_LAST, order, answer);
}
static inline bool percpu_gate_ordered_is_zero(percpu_gate_pass *pass)
{
    void *order = percpu_gate_order_of_pass(pass);
    bool yes = percpu_gate_is_zero(pass);
    (void)percpu_gate_acquires(yes, order, PERCPU_GATE_OK);
    return yes;
}
PERCPU_GATE_MUST_USE static inline percpu_gate_answer percpu_gate_ordered_kill(percpu_gate_control *control)
{
    void *order = percpu_gate_order_of_control(control);
    __tsan_release(order);
    percpu_gate_answer answer = percpu_gate_kill(control);
    return percpu_gate_acquires(answer == PERCPU_GATE_LAST, order, answer);
}
PERCPU_GATE_MUST_USE static inline percpu_gate_answer percpu_gate_ordered_drop_base(percpu_gate_control *control)
{
    void *order = percpu_gate_order_of_control(control);
    __tsan_release(order);
    percpu_gate_answer answer = percpu_gate_drop_base(control);
    return percpu_gate_acquires(answer == PERCPU_GATE_LAST, order, answer);
}
static inline bool percpu_gate_ordered_control_is_zero(percpu_gate_control *control)
{
    void *order = percpu_gate_order_of_control(control);
    bool yes = percpu_gate_control_is_zero(control);
    (void)percpu_gate_acquires(yes, order, PERCPU_GATE_OK);
    return yes;
}
PERCPU_GATE_MUST_USE static inline percpu_gate_answer percpu_gate_ordered_reinit(percpu_gate_control *control)
{
    void *order = percpu_gate_order_of_control(control);
    __tsan_release(order);
    percpu_gate_answer answer = percpu_gate_reinit(control);
    return percpu_gate_acquires(answer == PERCPU_GATE_OK, order, answer);
}
PERCPU_GATE_MUST_USE static inline percpu_gate_answer percpu_gate_ordered_resurrect(percpu_gate_control *control)
{
    void *order = percpu_gate_order_of_control(control);
    __tsan_release(order);
    percpu_gate_answer answer = percpu_gate_resurrect(control);
    return percpu_gate_acquires(answer == PERCPU_GATE_WAS_AT_ZERO, order, answer);
}

#define percpu_gate_try_get percpu_gate_ordered_try_get
#define percpu_gate_try_get_live percpu_gate_ordered_try_get_live
#define percpu_gate_put percpu_gate_ordered_put
#define percpu_gate_is_zero percpu_gate_ordered_is_zero
#define percpu_gate_kill percpu_gate_ordered_kill
#define percpu_gate_drop_base percpu_gate_ordered_drop_base
#define percpu_gate_control_is_zero percpu_gate_ordered_control_is_zero
#define percpu_gate_reinit percpu_gate_ordered_reinit
#define percpu_gate_resurrect percpu_gate_ordered_resurrect

#endif
