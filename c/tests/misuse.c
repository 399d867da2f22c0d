/* Each call of the library, and each number that it may answer, but for want of memory (refused.c), and for a gate that is
 * worn out or in use (inside.c). A call that is refused writes nothing. */
#include "percpu_gate.h"

#include <stdio.h>
#include <string.h>

static int failures;

static void is(const char *call, uint32_t answer, uint32_t want, int line)
{
    if (answer == want)
        return;
    fprintf(stderr, "line %d: %s answers %u, not %u\n", line, call, answer, want);
    failures++;
}

#define IS(call, want) is(#call, call, PERCPU_GATE_##want, __LINE__)
#define TELLS(value, want) is(#value, (uint32_t)(value), want, __LINE__)

static const uint64_t words[8] = {3, 0, 0, 0, 0, 0, 0, 9};
static percpu_gate_final last;
static uint64_t told, all[8];
static uint32_t slots;

static void closed_handles(void)
{
    percpu_gate_control control = {0};
    percpu_gate_pass pass = {0};
    told = all[0] = slots = last.kills = 7;
    IS(percpu_gate_try_get(&pass, 0), ERR_CLOSED);
    IS(percpu_gate_try_get_live(&pass, 0), ERR_CLOSED);
    IS(percpu_gate_get(&pass, 0, 1), ERR_CLOSED);
    IS(percpu_gate_put(&pass, 0, 1), ERR_CLOSED);
    TELLS(percpu_gate_is_dying(&pass), false);
    TELLS(percpu_gate_is_zero(&pass), false);
    IS(percpu_gate_front(&pass, &told), ERR_CLOSED);
    IS(percpu_gate_word(&pass, 0, &told), ERR_CLOSED);
    IS(percpu_gate_next_pass(&control, &pass), ERR_CLOSED);
    IS(percpu_gate_retire(&control, &pass), ERR_CLOSED);
    IS(percpu_gate_exit(&control, &last), ERR_CLOSED);
    IS(percpu_gate_kill(&control), ERR_CLOSED);
    IS(percpu_gate_mark_dead(&control, &slots), ERR_CLOSED);
    IS(percpu_gate_close_next(&control), ERR_CLOSED);
    IS(percpu_gate_collect(&control), ERR_CLOSED);
    IS(percpu_gate_confirm(&control, &told), ERR_CLOSED);
    IS(percpu_gate_drop_base(&control), ERR_CLOSED);
    IS(percpu_gate_phase(&control), ERR_CLOSED);
    TELLS(percpu_gate_control_is_zero(&control), false);
    TELLS(percpu_gate_pass_number(&pass), 0);
    TELLS(percpu_gate_control_number(&control), 0);
    IS(percpu_gate_reinit(&control), ERR_CLOSED);
    IS(percpu_gate_resurrect(&control), ERR_CLOSED);
    IS(percpu_gate_switch_to_atomic(&control), ERR_CLOSED);
    IS(percpu_gate_switch_to_slots(&control), ERR_CLOSED);
    IS(percpu_gate_store_word(&control, 0, 1), ERR_CLOSED);
    IS(percpu_gate_all_words(&control, all), ERR_CLOSED);
    IS(percpu_gate_kill_count(&control, &told), ERR_CLOSED);
    IS(percpu_gate_release_count(&control, &told), ERR_CLOSED);
    percpu_gate_free_pass(&pass);
    percpu_gate_free_control(&control);
    TELLS(told, 7);
    TELLS(all[0], 7);
    TELLS(slots, 7);
    TELLS(last.kills, 7);
}

static void a_pass(percpu_gate_pass *pass)
{
    IS(percpu_gate_try_get(pass, 2), ERR_BAD_SLOT);
    IS(percpu_gate_try_get_live(pass, 2), ERR_BAD_SLOT);
    IS(percpu_gate_get(pass, 2, 1), ERR_BAD_SLOT);
    IS(percpu_gate_put(pass, 2, 1), ERR_BAD_SLOT);
    IS(percpu_gate_get(pass, 0, 1), ERR_NOT_HELD);
    IS(percpu_gate_put(pass, 0, 1), ERR_NOT_HELD);
    IS(percpu_gate_word(pass, 0, &told), ERR_NOT_HELD);
    IS(percpu_gate_try_get_live(pass, 1), OK);
    IS(percpu_gate_get(pass, 0, 0), ERR_BAD_AMOUNT);
    IS(percpu_gate_put(pass, 0, 0), ERR_BAD_AMOUNT);
    IS(percpu_gate_put(pass, 0, 2), ERR_NOT_HELD);
    IS(percpu_gate_word(pass, 8, &told), ERR_BAD_WORD);
    TELLS(told, 7);
    IS(percpu_gate_word(pass, 7, &told), OK);
    TELLS(told, 9);
    IS(percpu_gate_get(pass, 0, 65535), ERR_HELD_FULL);
    IS(percpu_gate_get(pass, 0, 65534), OK);
    IS(percpu_gate_try_get(pass, 0), ERR_HELD_FULL);
    IS(percpu_gate_try_get_live(pass, 0), ERR_HELD_FULL);
    IS(percpu_gate_get(pass, 0, 1), ERR_HELD_FULL);
    IS(percpu_gate_put(pass, 1, 65534), OK);
    TELLS(percpu_gate_is_dying(pass), false);
    TELLS(percpu_gate_is_zero(pass), false);
}

/* What the gate itself refuses: while it lives, in the middle of a kill, and dead with a reference held. */
static void a_control(percpu_gate_control *control, percpu_gate_pass *pass)
{
    IS(percpu_gate_reinit(control), ERR_NOT_DEAD);
    IS(percpu_gate_resurrect(control), ERR_NOT_DEAD);
    IS(percpu_gate_store_word(control, 0, 1), ERR_NOT_DEAD);
    IS(percpu_gate_store_word(control, 8, 1), ERR_BAD_WORD);
    IS(percpu_gate_close_next(control), ERR_BAD_STEP);
    IS(percpu_gate_collect(control), ERR_BAD_STEP);
    IS(percpu_gate_confirm(control, &told), ERR_BAD_STEP);
    IS(percpu_gate_drop_base(control), ERR_BAD_STEP);
    for (uint32_t step = 0; step < 5; step++) {
        if (step == 0)
            IS(percpu_gate_mark_dead(control, &slots), OK);
        else if (step <= slots)
            IS(percpu_gate_close_next(control), OK);
        else if (step == slots + 1)
            IS(percpu_gate_collect(control), OK);
        else
            IS(percpu_gate_confirm(control, &told), OK);
        IS(percpu_gate_kill(control), ERR_MID_SWITCH);
        IS(percpu_gate_mark_dead(control, &slots), ERR_MID_SWITCH);
        IS(percpu_gate_reinit(control), ERR_MID_SWITCH);
        IS(percpu_gate_resurrect(control), ERR_MID_SWITCH);
        IS(percpu_gate_switch_to_atomic(control), ERR_MID_SWITCH);
        IS(percpu_gate_switch_to_slots(control), ERR_MID_SWITCH);
        IS(percpu_gate_store_word(control, 0, 1), ERR_MID_SWITCH);
        IS(percpu_gate_exit(control, &last), ERR_MID_SWITCH);
        TELLS(percpu_gate_is_dying(pass), true);
        TELLS(slots, 2);
        TELLS(last.kills, 7);
    }
    TELLS(told, 1);
    TELLS(percpu_gate_phase(control), PERCPU_GATE_PHASE_CONFIRMED);
    IS(percpu_gate_drop_base(control), OK);
    IS(percpu_gate_kill(control), ERR_ALREADY_DEAD);
    IS(percpu_gate_mark_dead(control, &slots), ERR_ALREADY_DEAD);
    IS(percpu_gate_reinit(control), ERR_NOT_ZERO);
    IS(percpu_gate_store_word(control, 0, 1), ERR_NOT_ZERO);
    TELLS(percpu_gate_control_is_zero(control), false);
}

/* Numbers from 0 to 80: which are misuse, which are the last, and a text for each that is an answer. */
static void numbers(void)
{
    static const char *const none = "no answer of a gate";
    for (uint32_t n = 0; n <= 80; n++) {
        bool is_answer = n <= 4 || (n >= 17 && n <= 22) || (n >= 32 && n <= 39) || (n >= 64 && n <= 69);
        TELLS(percpu_gate_is_misuse(n), n >= 32);
        TELLS(percpu_gate_is_last(n), n == PERCPU_GATE_LAST || n == PERCPU_GATE_NOT_GIVEN_LAST);
        TELLS(strcmp(percpu_gate_text(n), none) != 0, is_answer);
        for (uint32_t other = 0; is_answer && other < n; other++)
            TELLS(strcmp(percpu_gate_text(n), percpu_gate_text(other)) != 0, true);
    }
}

/* Passes that nobody asked for end with the gate. */
static void unasked(void)
{
    percpu_gate_control control = {0};
    percpu_gate_pass pass = {0};
    IS(percpu_gate_new(&control, 1, PERCPU_GATE_MOST_PASSES, PERCPU_GATE_START_DEAD, words), OK);
    IS(percpu_gate_exit(&control, &last), OK);
    TELLS(last.dead, true);
    TELLS(last.kills + last.releases, 0);
    IS(percpu_gate_new(&control, PERCPU_GATE_MOST_SLOTS, 3, PERCPU_GATE_START_SLOTS, words), OK);
    IS(percpu_gate_next_pass(&control, &pass), OK);
    IS(percpu_gate_kill(&control), LAST);
    IS(percpu_gate_exit(&control, &last), ERR_PASSES_OUT);
    TELLS(percpu_gate_control_number(&control) == percpu_gate_pass_number(&pass), true);
    IS(percpu_gate_retire(&control, &pass), OK);
    IS(percpu_gate_exit(&control, &last), OK);
    TELLS(last.kills, 1);
    TELLS(last.releases, 1);
}

int main(void)
{
    percpu_gate_control control = {0};
    percpu_gate_pass pass = {0}, none = {0};
    closed_handles();
    numbers();
    IS(percpu_gate_new(&control, 0, 1, PERCPU_GATE_START_SLOTS, words), ERR_BAD_SIZE);
    IS(percpu_gate_new(&control, 513, 1, PERCPU_GATE_START_SLOTS, words), ERR_BAD_SIZE);
    IS(percpu_gate_new(&control, 1, 0, PERCPU_GATE_START_SLOTS, words), ERR_BAD_SIZE);
    IS(percpu_gate_new(&control, 1, 1025, PERCPU_GATE_START_SLOTS, words), ERR_BAD_SIZE);
    IS(percpu_gate_new(&control, 1, 1, 3, words), ERR_BAD_SIZE);
    IS(percpu_gate_new(&control, 2, 1, PERCPU_GATE_START_SLOTS, words), OK);
    IS(percpu_gate_new(&control, 2, 1, PERCPU_GATE_START_SLOTS, words), ERR_OPEN);
    IS(percpu_gate_next_pass(&control, &pass), OK);
    IS(percpu_gate_exit(&control, &last), ERR_PASSES_OUT);
    IS(percpu_gate_next_pass(&control, &pass), ERR_OPEN);
    IS(percpu_gate_next_pass(&control, &none), ERR_NO_PASS);
    a_pass(&pass);
    a_control(&control, &pass);
    IS(percpu_gate_retire(&control, &pass), ERR_STILL_HELD);
    IS(percpu_gate_try_get_live(&pass, 0), NOT_GIVEN);
    IS(percpu_gate_try_get(&pass, 0), OK);
    IS(percpu_gate_put(&pass, 0, 2), LAST);
    IS(percpu_gate_try_get(&pass, 0), NOT_GIVEN);
    TELLS(percpu_gate_is_zero(&pass), true);
    TELLS(percpu_gate_control_is_zero(&control), true);
    IS(percpu_gate_store_word(&control, 0, 4), OK);
    IS(percpu_gate_reinit(&control), OK);
    IS(percpu_gate_front(&pass, &told), OK);
    TELLS(told, 2);
    IS(percpu_gate_all_words(&control, all), OK);
    TELLS(all[0], 4);
    IS(percpu_gate_kill(&control), LAST);
    IS(percpu_gate_resurrect(&control), WAS_AT_ZERO);
    IS(percpu_gate_exit(&control, &last), ERR_PASSES_OUT);
    IS(percpu_gate_retire(&control, &pass), OK);
    IS(percpu_gate_exit(&control, &last), OK);
    TELLS(last.kills, 2);
    unasked();
    return failures != 0;
}
