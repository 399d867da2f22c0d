/* By the gate's own memory, which no program may read or write. ERR_WORN_OUT, after 2^40 kills, and ERR_IN_USE, where somebody else
 * has a share of the gate: no use of handles leads there, or none in a day, so the counts are written here. */
#include "percpu_gate.h"

#include "inside.h"

enum { ROUNDS = 12345 };

#define IS(call, want) is(#call, call, PERCPU_GATE_##want, __LINE__)

static const uint64_t words[8] = {3};
static percpu_gate_control control;
static percpu_gate_pass passes[3];
static percpu_gate_final last;
static uint64_t kills;

/* Killed and revived so often; the last is told to a pass in every other life. */
static void kill_so_often(int times)
{
    for (int i = 0; i < times; i++) {
        bool is_held = i % 2 == 0;
        if (is_held)
            IS(percpu_gate_try_get_live(&passes[0], 0), OK);
        TELLS(percpu_gate_kill(&control), is_held ? PERCPU_GATE_OK : PERCPU_GATE_LAST);
        if (is_held)
            IS(percpu_gate_put(&passes[0], 0, 1), LAST);
        IS(percpu_gate_reinit(&control), OK);
    }
}

/* A gate that may not be killed any more works on, and stays live; it may be ended. */
static void worn_out(void)
{
    IS(percpu_gate_new(&control, 1, 3, PERCPU_GATE_START_SLOTS, words), OK);
    IS(percpu_gate_next_pass(&control, &passes[0]), OK);
    kill_so_often(ROUNDS);
    first_look(ROUNDS);
    kill_so_often(10);
    look_again(ROUNDS + 10);
    *the_word("kills") = ((uint64_t)1 << 40) - 1;
    IS(percpu_gate_kill(&control), LAST); /* the last */
    IS(percpu_gate_kill(&control), ERR_ALREADY_DEAD);
    IS(percpu_gate_reinit(&control), OK);
    IS(percpu_gate_kill(&control), ERR_WORN_OUT);
    uint32_t slots = 7;
    IS(percpu_gate_mark_dead(&control, &slots), ERR_WORN_OUT);
    TELLS(slots, 7);
    IS(percpu_gate_kill_count(&control, &kills), OK);
    TELLS(kills, (uint64_t)1 << 40);
    TELLS(percpu_gate_control_is_zero(&control), false);
    IS(percpu_gate_try_get_live(&passes[0], 0), OK);
    IS(percpu_gate_put(&passes[0], 0, 1), OK);
    IS(percpu_gate_retire(&control, &passes[0]), OK);
    IS(percpu_gate_exit(&control, &last), OK);
    TELLS(last.kills, (uint64_t)1 << 40);
    TELLS(last.releases, ROUNDS + 10 + 1);
    TELLS(blocks_now(), 0);
}

static void gives(int p) { IS(percpu_gate_next_pass(&control, &passes[p]), OK); }
static void takes_back(int p) { IS(percpu_gate_retire(&control, &passes[p]), OK); }

/* A gate whose passes are all back, and the word that counts its shares. */
static uint64_t *a_shared_gate(void)
{
    IS(percpu_gate_new(&control, 1, 3, PERCPU_GATE_START_SLOTS, words), OK);
    return word_of_shares(gives, takes_back);
}

static void in_use(void)
{
    uint64_t *shares = a_shared_gate();
    last.words[0] = 7;
    *shares = 2;
    IS(percpu_gate_exit(&control, &last), ERR_IN_USE);
    TELLS(last.words[0], 7); /* nothing is written */
    TELLS(control.is_open && control.at != NULL && *shares == 2, true);
    IS(percpu_gate_kill(&control), LAST); /* it was live */
    IS(percpu_gate_exit(&control, &last), ERR_IN_USE);
    IS(percpu_gate_reinit(&control), OK);
    *shares = 1;
    IS(percpu_gate_exit(&control, &last), OK);
    TELLS(last.kills == 1 && last.releases == 1 && last.words[0] == 3, true);
    TELLS(blocks_now(), 0);
    /* and where there is no memory for the handle the control is gone, and the other's share is left */
    shares = a_shared_gate();
    *shares = 2;
    last.words[0] = 7;
    allowed = 0;
    IS(percpu_gate_exit(&control, &last), ERR_NO_MEMORY);
    allowed = -1;
    TELLS(last.words[0], 7);
    TELLS(control.is_open || control.at != NULL, false);
    TELLS(*shares, 1);
}

int main(void)
{
    worn_out();
    in_use();
    printf("%s\n", failures ? "FAILED" : "refused");
    return failures != 0;
}
