/* Plain memory under the gate's guard, from life to life: threads write it while they hold a reference, who is told of
 * the last one (or who sees zero) reads what they wrote and frees it, and who revives the gate has made it anew. Under
 * the thread sanitizer that is a race wherever the header doesn't tell it the gate's order. Words: lives, threads. */
#define _POSIX_C_SOURCE 199309L
#include "percpu_gate.h"

#include <pthread.h>
#include <stdatomic.h>
#include <stdio.h>
#include <stdlib.h>
#include <time.h>

enum { MOST = 8 };

struct device { long life, served[MOST]; };

static struct worker {
    _Alignas(128) percpu_gate_pass pass;
    pthread_t thread;
    long served, seen; /* requests, and the last life that it saw */
} workers[MOST];

static percpu_gate_control control;
static struct device *device;   /* plain: the gate alone orders it */
static atomic_bool over, told;  /* no further life; who was told LAST is done */
static atomic_bool seen_by_main; /* in this life the device goes to who sees zero */
static atomic_bool quiet;        /* nobody asks for a reference: so a kill may be told LAST. Relaxed: it orders nothing */
static percpu_gate_pass mine;    /* the pass of main, by which it looks for zero in some lives */
static long threads, all_served;

static void add_and_free(void)
{
    for (long i = 0; i < threads; i++)
        all_served += device->served[i];
    free(device);
    device = NULL;
}

static void if_last(uint32_t answer)
{
    if (!percpu_gate_is_last(answer))
        return;
    if (!atomic_load(&seen_by_main))
        add_and_free();
    atomic_store(&told, true);
}

static void *serve(void *of)
{
    struct worker *me = of;
    uint32_t slot = (uint32_t)(me - workers);
    while (!atomic_load(&over)) {
        if (atomic_load_explicit(&quiet, memory_order_relaxed))
            continue;
        uint32_t answer = slot % 2 ? percpu_gate_try_get(&me->pass, slot) : percpu_gate_try_get_live(&me->pass, slot);
        if (answer == PERCPU_GATE_OK) {
            if (device->life < me->seen)
                abort();
            me->seen = device->life;
            device->served[slot]++;
            me->served++;
            answer = percpu_gate_put(&me->pass, slot, 1);
        }
        if (percpu_gate_is_misuse(answer))
            abort();
        if_last(answer);
    }
    return NULL;
}

static void make_device(long life)
{
    if (!(device = calloc(1, sizeof *device)))
        exit(1);
    device->life = life;
}

static uint32_t kill_some_way(long life)
{
    uint32_t slots;
    uint64_t front;
    if (life % 3 > 0)
        return percpu_gate_kill(&control);
    if (percpu_gate_mark_dead(&control, &slots) || slots != threads)
        exit(2);
    for (uint32_t i = 0; i < slots; i++)
        if (percpu_gate_close_next(&control))
            exit(2);
    if (percpu_gate_collect(&control) || percpu_gate_confirm(&control, &front))
        exit(2);
    return percpu_gate_drop_base(&control);
}

static void end_life(long life)
{
    atomic_store(&seen_by_main, life % 2 > 0);
    atomic_store_explicit(&quiet, life % 4 < 2, memory_order_relaxed);
    if (life % 4 < 2)
        nanosleep(&(struct timespec){.tv_nsec = 100000}, NULL);
    if_last(kill_some_way(life));
    if (life % 2 > 0) {
        while (!(life % 5 ? percpu_gate_control_is_zero(&control) : percpu_gate_is_zero(&mine))) {}
        add_and_free();
    }
    while (!atomic_exchange(&told, false)) {}
    atomic_store_explicit(&quiet, false, memory_order_relaxed);
}

int main(int argc, char **argv)
{
    const uint64_t words[8] = {0};
    long lives = argc > 1 ? atol(argv[1]) : 1000, served = 0;
    percpu_gate_final last;
    threads = argc > 2 ? atol(argv[2]) : 4;
    make_device(0);
    if (threads > MOST || percpu_gate_new(&control, (uint32_t)threads, (uint32_t)threads + 1, PERCPU_GATE_START_SLOTS, words) ||
        percpu_gate_next_pass(&control, &mine))
        return 1;
    for (long i = 0; i < threads; i++)
        if (percpu_gate_next_pass(&control, &workers[i].pass) ||
            pthread_create(&workers[i].thread, NULL, serve, &workers[i]))
            return 1;
    for (long life = 0; life < lives; life++) {
        end_life(life);
        if (life + 1 == lives)
            break;
        make_device(life + 1);
        if (life % 5 ? percpu_gate_reinit(&control) != PERCPU_GATE_OK
                     : percpu_gate_resurrect(&control) != PERCPU_GATE_WAS_AT_ZERO)
            return 3;
    }
    atomic_store(&over, true);
    for (long i = 0; i < threads; i++) {
        pthread_join(workers[i].thread, NULL);
        served += workers[i].served;
        if (percpu_gate_retire(&control, &workers[i].pass))
            return 4;
    }
    if (percpu_gate_retire(&control, &mine) || percpu_gate_exit(&control, &last) || last.kills != (uint64_t)lives || last.releases != (uint64_t)lives)
        return 5;
    printf("%s\n", served == all_served ? "as many" : "LOST");
    return served != all_served;
}
