/* Plain memory that nothing orders but a gate. Each row is a play of three threads: the control and two passes take their
 * turns, handed on by relaxed atomics, which order nothing. One writes before its call and another reads after its own,
 * for each pair of calls that "Order" of the header promises. Under the thread sanitizer a pair that it isn't told of is a
 * race. Words: none, or the name of a play that is a race, since its calls promise no order: the sanitizer has to report
 * it. */
#include "percpu_gate.h"

#include <pthread.h>
#include <sched.h>
#include <stdatomic.h>
#include <stdio.h>
#include <stdlib.h>
#include <string.h>

enum { CONTROL = 0, FIRST = 1, SECOND = 2, ACTORS = 3, MOST_STEPS = 8 };

static const uint64_t words[8] = {0};
static percpu_gate_control control;
static percpu_gate_pass passes[ACTORS]; /* of the second and third thread */
static long plain;                      /* the gate alone orders it */
static atomic_int turn;                 /* relaxed: it orders nothing */

static void need(const char *what, uint32_t answer, uint32_t want)
{
    if (answer == want)
        return;
    fprintf(stderr, "ordered: %s answers %u, not %u\n", what, answer, want);
    exit(2);
}

/* What a thread does in its turn. */
#define STEP(name, call, want) \
    static void name(percpu_gate_pass *pass) { (void)pass; need(#name, call, want); }
STEP(takes, percpu_gate_try_get(pass, 0), PERCPU_GATE_OK)
STEP(takes_live, percpu_gate_try_get_live(pass, 0), PERCPU_GATE_OK)
STEP(isnt_given, percpu_gate_try_get_live(pass, 0), PERCPU_GATE_NOT_GIVEN)
STEP(puts_one, percpu_gate_put(pass, 0, 1), PERCPU_GATE_OK)
STEP(puts_last, percpu_gate_put(pass, 0, 1), PERCPU_GATE_LAST)
STEP(sees_zero, percpu_gate_is_zero(pass), true)
STEP(kills, percpu_gate_kill(&control), PERCPU_GATE_OK)
STEP(kills_last, percpu_gate_kill(&control), PERCPU_GATE_LAST)
STEP(drops_base, percpu_gate_drop_base(&control), PERCPU_GATE_OK)
STEP(drops_last, percpu_gate_drop_base(&control), PERCPU_GATE_LAST)
STEP(control_sees_zero, percpu_gate_control_is_zero(&control), true)
STEP(reinits, percpu_gate_reinit(&control), PERCPU_GATE_OK)
STEP(resurrects, percpu_gate_resurrect(&control), PERCPU_GATE_OK)
STEP(resurrects_at_zero, percpu_gate_resurrect(&control), PERCPU_GATE_WAS_AT_ZERO)

static void confirms(percpu_gate_pass *pass)
{
    uint32_t slots;
    uint64_t front;
    (void)pass;
    need("mark_dead", percpu_gate_mark_dead(&control, &slots), PERCPU_GATE_OK);
    need("close_next", percpu_gate_close_next(&control), PERCPU_GATE_OK);
    need("collect", percpu_gate_collect(&control), PERCPU_GATE_OK);
    need("confirm", percpu_gate_confirm(&control, &front), PERCPU_GATE_OK);
}
static void writes(percpu_gate_pass *pass)
{
    (void)pass;
    plain++;
}
static void reads(percpu_gate_pass *pass)
{
    (void)pass;
    if (plain != 1)
        need("what was written", (uint32_t)plain, 1);
}

struct play {
    const char *name; /* NULL: ordered */
    struct { int actor; void (*does)(percpu_gate_pass *); } steps[MOST_STEPS];
};

static const struct play plays[] = {
    /* before a kill, or its last step, for whoever is told of the last put */
    {NULL, {{FIRST, takes_live}, {CONTROL, writes}, {CONTROL, kills}, {FIRST, puts_last}, {FIRST, reads}}},
    {NULL, {{FIRST, takes_live}, {CONTROL, confirms}, {CONTROL, writes}, {CONTROL, drops_base}, {FIRST, puts_last}, {FIRST, reads}}},
    /* before a revival, for whoever is given a reference of the life that it begins */
    {NULL, {{CONTROL, kills_last}, {CONTROL, writes}, {CONTROL, reinits}, {FIRST, takes_live}, {FIRST, reads}}},
    {NULL, {{CONTROL, kills_last}, {CONTROL, writes}, {CONTROL, reinits}, {FIRST, takes}, {FIRST, reads}}},
    {NULL, {{FIRST, takes}, {CONTROL, kills}, {CONTROL, writes}, {CONTROL, resurrects}, {SECOND, takes}, {SECOND, reads}}},
    {NULL, {{FIRST, takes}, {CONTROL, kills}, {CONTROL, writes}, {CONTROL, resurrects}, {SECOND, takes_live}, {SECOND, reads}}},
    {NULL, {{CONTROL, kills_last}, {CONTROL, writes}, {CONTROL, resurrects_at_zero}, {FIRST, takes_live}, {FIRST, reads}}},
    /* under a reference, for whoever is told, or sees, that the last is gone */
    {NULL, {{FIRST, takes_live}, {SECOND, takes}, {CONTROL, kills}, {FIRST, writes}, {FIRST, puts_one}, {SECOND, puts_last}, {SECOND, reads}}},
    {NULL, {{FIRST, takes_live}, {FIRST, writes}, {FIRST, puts_one}, {CONTROL, kills_last}, {CONTROL, reads}}},
    {NULL, {{FIRST, takes_live}, {FIRST, writes}, {FIRST, puts_one}, {CONTROL, confirms}, {CONTROL, drops_last}, {CONTROL, reads}}},
    {NULL, {{FIRST, takes_live}, {CONTROL, kills}, {FIRST, writes}, {FIRST, puts_last}, {SECOND, sees_zero}, {SECOND, reads}}},
    {NULL, {{FIRST, takes_live}, {CONTROL, kills}, {FIRST, writes}, {FIRST, puts_last}, {CONTROL, control_sees_zero}, {CONTROL, reads}}},
    {NULL, {{FIRST, takes_live}, {CONTROL, kills}, {FIRST, writes}, {FIRST, puts_last}, {CONTROL, reinits}, {CONTROL, reads}}},
    {NULL, {{FIRST, takes_live}, {CONTROL, kills}, {FIRST, writes}, {FIRST, puts_last}, {CONTROL, resurrects_at_zero}, {CONTROL, reads}}},
    /* what promises no order */
    {"put", {{FIRST, takes}, {SECOND, takes}, {FIRST, writes}, {FIRST, puts_one}, {SECOND, puts_one}, {SECOND, reads}}},
    {"refused", {{CONTROL, writes}, {CONTROL, kills_last}, {FIRST, isnt_given}, {FIRST, reads}}},
    {"resurrected", {{FIRST, takes}, {SECOND, takes}, {CONTROL, kills}, {FIRST, writes}, {FIRST, puts_one}, {CONTROL, resurrects}, {CONTROL, reads}}},
};

struct actor {
    const struct play *play;
    int number;
};

static void *act(void *of)
{
    const struct actor *me = of;
    for (int at = 0; at < MOST_STEPS && me->play->steps[at].does; at++)
        if (me->play->steps[at].actor == me->number) {
            while (atomic_load_explicit(&turn, memory_order_relaxed) != at)
                sched_yield();
            me->play->steps[at].does(&passes[me->number]);
            atomic_store_explicit(&turn, at + 1, memory_order_relaxed);
        }
    return NULL;
}

static void perform(const struct play *play)
{
    struct actor actors[ACTORS];
    pthread_t threads[ACTORS];
    plain = 0;
    atomic_store(&turn, 0);
    need("new", percpu_gate_new(&control, 1, 2, PERCPU_GATE_START_SLOTS, words), PERCPU_GATE_OK);
    for (int i = FIRST; i < ACTORS; i++)
        need("next_pass", percpu_gate_next_pass(&control, &passes[i]), PERCPU_GATE_OK);
    for (int i = 0; i < ACTORS; i++) {
        actors[i] = (struct actor){play, i};
        if (pthread_create(&threads[i], NULL, act, &actors[i]))
            exit(2);
    }
    for (int i = 0; i < ACTORS; i++)
        pthread_join(threads[i], NULL);
    for (int i = FIRST; i < ACTORS; i++)
        percpu_gate_free_pass(&passes[i]);
    percpu_gate_free_control(&control);
}

int main(int argc, char **argv)
{
    int performed = 0;
    for (size_t i = 0; i < sizeof plays / sizeof *plays; i++) {
        const char *name = plays[i].name;
        if (argc > 1 ? name && strcmp(name, argv[1]) == 0 : name == NULL) {
            perform(&plays[i]);
            performed++;
        }
    }
    printf("%d played\n", performed);
    return performed == 0;
}
