/* Which calls take no step on the gate (stepless.h): handles that are freed or given out, questions, switches that change nothing, and
 * calls that are refused. */
#define _GNU_SOURCE
#include "percpu_gate.h"

#include "stepless.h"

enum { SLOTS = 4, PASSES = 3 };

#define IS(call, want) is(#call, call, PERCPU_GATE_##want, __LINE__)

static const uint64_t words[PERCPU_GATE_WORD_COUNT] = {3};
static percpu_gate_control control;
static percpu_gate_pass passes[PERCPU_GATE_MOST_PASSES], closed;

static void comes_in(int p) { IS(percpu_gate_try_get(&passes[p], 0), OK); }
static void goes_out(int p) { IS(percpu_gate_put(&passes[p], 0, 1), OK); }

enum { LIVE, BEGUN, DEAD, CONFIRMED };

/* A gate of a size, live, at the first or last step of a kill, or dead, whose pass 2 holds a reference, and pass 0 if asked for. */
static void a_gate(uint32_t slot_count, int count, uint32_t start, int kill, bool is_held)
{
    uint32_t slots;
    uint64_t front;
    block_count = 0;
    IS(percpu_gate_new(&control, slot_count, (uint32_t)count, start, words), OK);
    for (int p = 0; p < count; p++)
        IS(percpu_gate_next_pass(&control, &passes[p]), OK);
    finds_the_table(comes_in, goes_out);
    IS(percpu_gate_try_get(&passes[2], 1 % slot_count), OK);
    if (is_held)
        IS(percpu_gate_try_get(&passes[0], 2 % slot_count), OK);
    if (kill == DEAD)
        IS(percpu_gate_kill(&control), OK);
    if (kill == BEGUN || kill == CONFIRMED)
        IS(percpu_gate_mark_dead(&control, &slots), OK);
    if (kill == CONFIRMED) {
        for (uint32_t slot = 0; slot < slots; slot++)
            IS(percpu_gate_close_next(&control), OK);
        if (slots > 0)
            IS(percpu_gate_collect(&control), OK);
        IS(percpu_gate_confirm(&control, &front), OK);
    }
}

static void questions(int kill)
{
    uint64_t number, read[PERCPU_GATE_WORD_COUNT];
    TELLS(STEPLESS(percpu_gate_is_dying(&passes[2])), kill != LIVE);
    TELLS(STEPLESS(percpu_gate_is_zero(&passes[2])), false);
    TELLS(STEPLESS(percpu_gate_front(&passes[2], &number)), PERCPU_GATE_OK);
    TELLS(STEPLESS(percpu_gate_word(&passes[2], 0, &number)), PERCPU_GATE_OK);
    TELLS(number, 3);
    TELLS(STEPLESS(percpu_gate_all_words(&control, read)), PERCPU_GATE_OK);
    TELLS(STEPLESS(percpu_gate_kill_count(&control, &number)), PERCPU_GATE_OK);
    TELLS(number, kill != LIVE);
    TELLS(STEPLESS(percpu_gate_release_count(&control, &number)), PERCPU_GATE_OK);
    TELLS(STEPLESS(percpu_gate_control_is_zero(&control)), false);
    STEPLESS(percpu_gate_phase(&control));
    TELLS(STEPLESS(percpu_gate_pass_number(&passes[2])) == STEPLESS(percpu_gate_control_number(&control)), true);
}

/* A switch to the mode in which a live gate counts, and any of a dead one, which says how it comes back. */
static void switches(uint32_t start, int kill)
{
    if (kill == DEAD || (kill == LIVE && start == PERCPU_GATE_START_SLOTS))
        TELLS(STEPLESS(percpu_gate_switch_to_slots(&control)), PERCPU_GATE_OK);
    if (kill == DEAD || (kill == LIVE && start == PERCPU_GATE_START_ATOMIC))
        TELLS(STEPLESS(percpu_gate_switch_to_atomic(&control)), PERCPU_GATE_OK);
    if (kill == BEGUN || kill == CONFIRMED)
        TELLS(STEPLESS(percpu_gate_switch_to_slots(&control)) >= 16 && STEPLESS(percpu_gate_switch_to_atomic(&control)) >= 16, true);
}

static void refused_calls(int kill)
{
    percpu_gate_final last;
    TELLS(STEPLESS(percpu_gate_try_get(&passes[1], SLOTS)), PERCPU_GATE_ERR_BAD_SLOT);
    TELLS(STEPLESS(percpu_gate_try_get_live(&passes[1], SLOTS)), PERCPU_GATE_ERR_BAD_SLOT);
    TELLS(STEPLESS(percpu_gate_get(&passes[1], 0, 1)), PERCPU_GATE_ERR_NOT_HELD);
    TELLS(STEPLESS(percpu_gate_put(&passes[1], 0, 1)), PERCPU_GATE_ERR_NOT_HELD);
    TELLS(STEPLESS(percpu_gate_put(&passes[2], 0, 2)), PERCPU_GATE_ERR_NOT_HELD);
    TELLS(STEPLESS(percpu_gate_next_pass(&control, &closed)), PERCPU_GATE_ERR_NO_PASS);
    TELLS(STEPLESS(percpu_gate_next_pass(&control, &passes[1])), PERCPU_GATE_ERR_OPEN);
    TELLS(STEPLESS(percpu_gate_retire(&control, &passes[2])), PERCPU_GATE_ERR_STILL_HELD);
    TELLS(STEPLESS(percpu_gate_retire(&control, &closed)), PERCPU_GATE_ERR_CLOSED);
    TELLS(STEPLESS(percpu_gate_new(&control, 1, 1, PERCPU_GATE_START_SLOTS, words)), PERCPU_GATE_ERR_OPEN);
    TELLS(STEPLESS(percpu_gate_exit(&control, &last)) >= 16, true);
    if (kill == DEAD)
        TELLS(STEPLESS(percpu_gate_kill(&control)), PERCPU_GATE_ERR_ALREADY_DEAD);
    else
        TELLS(STEPLESS(percpu_gate_reinit(&control)) >= 16 && STEPLESS(percpu_gate_resurrect(&control)) >= 16, true);
}

static uint64_t frees_pass(int p)
{
    percpu_gate_free_pass(&passes[p]);
    return passes[p].is_open;
}

static uint64_t frees_control(void)
{
    percpu_gate_free_control(&control);
    return control.is_open;
}

/* All handles are freed, the last share of the gate by pass 2. */
static void handles(int count)
{
    TELLS(STEPLESS(frees_pass(0)), false);
    TELLS(STEPLESS(frees_control()), false);
    TELLS(STEPLESS(frees_pass(1)), false);
    for (int p = PASSES; p < count; p++)
        TELLS(STEPLESS(frees_pass(p)), false);
    percpu_gate_free_pass(&passes[2]);
}

/* Handles are freed of a gate of this size, in each state. */
static void handles_of(uint32_t slot_count, int count)
{
    for (uint32_t start = 0; start < 2; start++)
        for (int kill = LIVE; kill <= CONFIRMED; kill++) {
            a_gate(slot_count, count, start, kill, kill % 2);
            handles(count);
        }
}

/* Of each number of slots, and of each number of passes; above 64 of some. */
static void handles_of_each_size(void)
{
    for (int size = 1; size <= 64; size++) {
        handles_of((uint32_t)size, PASSES);
        handles_of(1, PASSES + size);
    }
    for (int size = 100; size < PERCPU_GATE_MOST_SLOTS; size = 2 * size + 1) {
        handles_of((uint32_t)size, PASSES);
        handles_of(2, size);
    }
    handles_of(PERCPU_GATE_MOST_SLOTS, PASSES);
    handles_of(1, PERCPU_GATE_MOST_PASSES);
}

int main(void)
{
    tells_writes();
    for (uint32_t start = 0; start < 2; start++)
        for (int kill = LIVE; kill <= CONFIRMED; kill++)
            for (int is_held = 0; is_held < 2; is_held++) {
                a_gate(SLOTS, PASSES, start, kill, is_held);
                questions(kill);
                switches(start, kill);
                refused_calls(kill);
                TELLS(STEPS(percpu_gate_try_get(&passes[1], 0)), PERCPU_GATE_OK); /* and what does take steps is seen */
                TELLS(STEPS(percpu_gate_put(&passes[1], 3, 1)), PERCPU_GATE_OK);
                handles(PASSES);
            }
    handles_of_each_size();
    printf("%s\n", failures ? "FAILED" : "no step but their own");
    return failures != 0;
}
