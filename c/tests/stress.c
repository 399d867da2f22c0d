/* Four threads count on a gate while it is killed, revived and switched: releases are as many as answers of LAST. */
#include "percpu_gate.h"

#include <pthread.h>
#include <stdatomic.h>
#include <stdio.h>
#include <stdlib.h>

enum { THREADS = 4 };

struct counter {
    _Alignas(128) percpu_gate_pass pass;
    uint32_t slot;
    long rounds, lasts;
};

static struct counter counters[THREADS];
static percpu_gate_control control;
static atomic_int running = THREADS;

static void *count(void *of)
{
    struct counter *me = of;
    for (long i = 0; i < me->rounds; i++) {
        uint32_t answer = i % 2 ? percpu_gate_try_get(&me->pass, me->slot) : percpu_gate_try_get_live(&me->pass, me->slot);
        if (answer == PERCPU_GATE_OK) {
            uint64_t word;
            if (percpu_gate_word(&me->pass, 0, &word) || percpu_gate_get(&me->pass, me->slot, 2))
                abort();
            me->lasts += percpu_gate_is_last(percpu_gate_put(&me->pass, (me->slot + 1) % THREADS, 3));
        } else if (answer == PERCPU_GATE_NOT_GIVEN_LAST) {
            me->lasts++;
        } else if (answer != PERCPU_GATE_NOT_GIVEN) {
            abort();
        }
    }
    atomic_fetch_sub(&running, 1);
    return NULL;
}

/* A kill step by step: between its confirmation and its last step nothing has reached zero. */
static uint32_t kill_by_steps(void)
{
    uint32_t slots;
    uint64_t front = 0;
    if (percpu_gate_mark_dead(&control, &slots) || percpu_gate_kill(&control) != PERCPU_GATE_ERR_MID_SWITCH)
        abort();
    for (uint32_t i = 0; i < slots; i++)
        if (percpu_gate_collect(&control) != PERCPU_GATE_ERR_BAD_STEP || percpu_gate_close_next(&control))
            abort();
    if (percpu_gate_close_next(&control) != PERCPU_GATE_ERR_BAD_STEP || (slots > 0 && percpu_gate_collect(&control)))
        abort();
    if (percpu_gate_drop_base(&control) != PERCPU_GATE_ERR_BAD_STEP || percpu_gate_confirm(&control, &front) || front % 2 == 0)
        abort();
    if (percpu_gate_phase(&control) != PERCPU_GATE_PHASE_CONFIRMED || percpu_gate_control_is_zero(&control))
        abort();
    return percpu_gate_drop_base(&control);
}

int main(int argc, char **argv)
{
    const uint64_t words[8] = {0};
    long rounds = argc > 1 ? atol(argv[1]) : 1000000, kills = argc > 2 ? atol(argv[2]) : 1000, lasts = 0;
    uint64_t word = 0, releases = 0, killed = 0, stored[8] = {1};
    pthread_t threads[THREADS];

    if (percpu_gate_new(&control, THREADS, THREADS, PERCPU_GATE_START_SLOTS, words))
        return 1;
    for (uint32_t i = 0; i < THREADS; i++) {
        counters[i].slot = i;
        counters[i].rounds = rounds;
        if (percpu_gate_next_pass(&control, &counters[i].pass))
            return 1;
    }
    for (int i = 0; i < THREADS; i++)
        pthread_create(&threads[i], NULL, count, &counters[i]);
    for (long i = 0; i < kills || atomic_load(&running) > 0; i++) {
        uint32_t answer = i % 3 ? percpu_gate_kill(&control) : kill_by_steps();
        if (answer > PERCPU_GATE_LAST)
            return 2;
        lasts += percpu_gate_is_last(answer);
        if (percpu_gate_control_is_zero(&control) && percpu_gate_store_word(&control, 0, ++word))
            return 3;
        answer = percpu_gate_resurrect(&control);
        if (answer != PERCPU_GATE_OK && answer != PERCPU_GATE_WAS_AT_ZERO)
            return 4;
        if (i % 2 ? percpu_gate_switch_to_atomic(&control) : percpu_gate_switch_to_slots(&control))
            return 5;
    }
    for (int i = 0; i < THREADS; i++) {
        pthread_join(threads[i], NULL);
        lasts += counters[i].lasts;
        if (percpu_gate_retire(&control, &counters[i].pass))
            return 6;
    }
    if (percpu_gate_all_words(&control, stored) || stored[0] != word || stored[7])
        return 9;
    if (percpu_gate_release_count(&control, &releases) || percpu_gate_kill_count(&control, &killed) || releases > killed)
        return 7;
    percpu_gate_final last;
    if (percpu_gate_exit(&control, &last) || last.dead || last.releases != releases)
        return 8;
    printf("%s\n", (uint64_t)lasts == releases ? "as many" : "LOST");
    return (uint64_t)lasts != releases;
}
