/* Each allocation of a whole life of a gate is refused in turn: a number is answered, nothing is lost and nothing leaks (refused.h).
 * Then the misuses that take two gates. No call but new and next_pass allocates at all, and free_pass and free_control give back
 * every block, wherever the gate stands. */
#include "refused.h"

static const uint64_t words[8] = {3};

static uint32_t uses(owner *of, seat *seats)
{
    (void)of;
    return percpu_gate_try_get(&seats[0], 0) || percpu_gate_put(&seats[0], 1, 1);
}

static bool is_as_made(const final *last) { return last->words[0] == 3; }

/* A pass is given at each step of a kill and behind it, in each of three lives: it has memory there. */
static int at_each_step(void)
{
    percpu_gate_control control = {0};
    percpu_gate_pass passes[32] = {{0}};
    percpu_gate_final last;
    uint32_t given = 0, slots;
    uint64_t front;
    if (percpu_gate_new(&control, 2, 32, PERCPU_GATE_START_SLOTS, words))
        return 1;
    for (int life = 0; life < 3; life++)
        if (percpu_gate_next_pass(&control, &passes[given++]) || percpu_gate_switch_to_atomic(&control) ||
            percpu_gate_next_pass(&control, &passes[given++]) || percpu_gate_switch_to_slots(&control) ||
            percpu_gate_mark_dead(&control, &slots) || percpu_gate_next_pass(&control, &passes[given++]) ||
            percpu_gate_close_next(&control) || percpu_gate_next_pass(&control, &passes[given++]) ||
            percpu_gate_close_next(&control) || percpu_gate_next_pass(&control, &passes[given++]) ||
            percpu_gate_collect(&control) || percpu_gate_next_pass(&control, &passes[given++]) ||
            percpu_gate_confirm(&control, &front) || percpu_gate_next_pass(&control, &passes[given++]) ||
            percpu_gate_drop_base(&control) != PERCPU_GATE_LAST || percpu_gate_next_pass(&control, &passes[given++]) ||
            percpu_gate_reinit(&control))
            return 1;
    while (given > 0)
        if (percpu_gate_retire(&control, &passes[--given]))
            return 1;
    return percpu_gate_exit(&control, &last) || last.kills != 3;
}

/* A whole life with no memory left: malloc isn't even called, and each call is answered as ever. */
static int no_call_allocates(void)
{
    percpu_gate_control control = {0};
    percpu_gate_pass pass = {0}, freed = {0};
    percpu_gate_final last;
    uint32_t slots;
    uint64_t told, all[8];
    if (percpu_gate_new(&control, 2, 2, PERCPU_GATE_START_SLOTS, words) || percpu_gate_next_pass(&control, &pass) ||
        percpu_gate_next_pass(&control, &freed))
        return 1;
    refusals = allowed = 0;
    for (int life = 0; life < 3; life++) {
        if (percpu_gate_switch_to_atomic(&control) || percpu_gate_switch_to_slots(&control) ||
            percpu_gate_try_get(&pass, 0) || percpu_gate_try_get_live(&pass, 1) || percpu_gate_get(&pass, 1, 2) ||
            percpu_gate_word(&pass, 0, &told) || percpu_gate_front(&pass, &told) || percpu_gate_is_dying(&pass) ||
            percpu_gate_kill(&control) || percpu_gate_try_get_live(&pass, 0) != PERCPU_GATE_NOT_GIVEN ||
            percpu_gate_resurrect(&control) || percpu_gate_mark_dead(&control, &slots) || slots != 2)
            return 2;
        if (percpu_gate_close_next(&control) || percpu_gate_close_next(&control) || percpu_gate_collect(&control) ||
            percpu_gate_confirm(&control, &told) || percpu_gate_phase(&control) != PERCPU_GATE_PHASE_CONFIRMED ||
            percpu_gate_drop_base(&control) || percpu_gate_put(&pass, 0, 4) != PERCPU_GATE_LAST)
            return 3;
        if (!percpu_gate_is_zero(&pass) || !percpu_gate_control_is_zero(&control) ||
            percpu_gate_store_word(&control, 0, 3) || percpu_gate_all_words(&control, all) ||
            percpu_gate_kill_count(&control, &told) || percpu_gate_release_count(&control, &told) || percpu_gate_reinit(&control) ||
            percpu_gate_pass_number(&pass) != percpu_gate_control_number(&control))
            return 4;
    }
    if (percpu_gate_retire(&control, &pass) || percpu_gate_exit(&control, &last) != PERCPU_GATE_ERR_PASSES_OUT)
        return 5;
    percpu_gate_free_pass(&freed);
    percpu_gate_free_control(&control);
    allowed = -1;
    return refusals != 0;
}

/* A control that is freed after so many steps of a kill, and a pass that holds, give back all that they have. */
static int freed_in_each_phase(void)
{
    for (int steps = 0; steps <= 6; steps++) {
        percpu_gate_control control = {0};
        percpu_gate_pass pass = {0};
        uint32_t slots;
        uint64_t front;
        if (percpu_gate_new(&control, 2, 2, PERCPU_GATE_START_SLOTS, words) || percpu_gate_next_pass(&control, &pass) ||
            percpu_gate_try_get(&pass, 1))
            return 1;
        if ((steps > 0 && percpu_gate_mark_dead(&control, &slots)) || (steps > 1 && percpu_gate_close_next(&control)) ||
            (steps > 2 && percpu_gate_close_next(&control)) || (steps > 3 && percpu_gate_collect(&control)) ||
            (steps > 4 && percpu_gate_confirm(&control, &front)) || (steps > 5 && percpu_gate_drop_base(&control)))
            return 2;
        percpu_gate_free_control(&control);
        percpu_gate_free_pass(&pass);
        if (blocks != 0)
            return 3;
    }
    return 0;
}

static int two_gates(void)
{
    percpu_gate_control a = {0}, b = {0};
    percpu_gate_pass pass = {0};
    percpu_gate_final last;
    if (percpu_gate_new(&a, 1, 1, PERCPU_GATE_START_ATOMIC, words) || percpu_gate_new(&b, 1, 1, PERCPU_GATE_START_DEAD, words) ||
        percpu_gate_next_pass(&a, &pass) || percpu_gate_try_get(&pass, 0))
        return 1;
    if (percpu_gate_retire(&b, &pass) != PERCPU_GATE_ERR_OTHER_GATE || percpu_gate_retire(&a, &pass) != PERCPU_GATE_ERR_STILL_HELD)
        return 2;
    if (percpu_gate_put(&pass, 0, 1) || percpu_gate_retire(&a, &pass) || percpu_gate_retire(&a, &pass) != PERCPU_GATE_ERR_CLOSED)
        return 3;
    if (percpu_gate_exit(&a, &last) || percpu_gate_next_pass(&b, &pass))
        return 4;
    percpu_gate_free_pass(&pass);
    if (percpu_gate_exit(&b, &last) != PERCPU_GATE_ERR_PASSES_OUT || !b.is_open)
        return 5;
    percpu_gate_free_control(&b);
    return percpu_gate_exit(&b, &last) != PERCPU_GATE_ERR_CLOSED;
}

int main(void)
{
    return refused_as_it_is() || no_call_allocates() || freed_in_each_phase() || at_each_step() || two_gates() || blocks != 0;
}
