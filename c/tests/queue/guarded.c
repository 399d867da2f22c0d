/* Plain memory under the queue's guard, with no lock beside it, from freeze to freeze: threads write counts and read a
 * setting while they are entered, who finds the queue drained, in each way that there is, reads the counts and writes the
 * setting, and who is told LAST reads what was written before the freeze. Under the thread sanitizer that is a race
 * wherever the header doesn't tell it the queue's order. Words: freezes, threads. */
#define _POSIX_C_SOURCE 200809L
#include "freeze_queue.h"
#include "../moment.h"
#include "../need.h"

#include <pthread.h>
#include <stdatomic.h>
#include <stdio.h>
#include <stdlib.h>

enum { MOST = 8, WAYS = 3 };

static struct submitter {
    _Alignas(128) freeze_queue_tag tag;
    pthread_t thread;
    long served, in_all;
    atomic_ulong turns; /* with order, so that who has seen one end may write what it read */
} submitters[MOST];

static freeze_queue freezer;
static freeze_queue_limits setting = {.hardware = 64, .max = 64, .chunk = 0, .physical = 1}; /* plain */
static long freeze, all_served, threads;   /* freeze: plain, written before each, and read by who is told of its drain */
static atomic_bool over;                   /* relaxed: it orders nothing */
static atomic_ulong told;                  /* looked at with no order before the counts are read, and with order after */
static long told_freeze;                   /* plain, written by who is told */

static void if_drained(uint32_t answer)
{
    if (!freeze_queue_is_drained(answer))
        return;
    told_freeze = freeze;
    atomic_fetch_add(&told, 1);
}

static void *serve(void *of)
{
    struct submitter *me = of;
    uint32_t slot = (uint32_t)(me - submitters);
    for (long turn = 0; !atomic_load_explicit(&over, memory_order_relaxed); turn++) {
        bool looks = slot % 2 && turn % 4 == 0; /* enters also a queue that is frozen */
        uint32_t answer = looks ? freeze_queue_try_enter_frozen(&me->tag, slot) : freeze_queue_try_enter(&me->tag, slot);
        if (answer == FREEZE_QUEUE_OK) {
            freeze_queue_limits limits;
            need(freeze_queue_limits_of(&me->tag, &limits) == FREEZE_QUEUE_OK, "limits");
            need(limits.max == setting.max && limits.chunk == setting.chunk, "another setting");
            me->served++;
            me->in_all++;
            if (turn % 8 == 0)
                moment(); /* so that a freeze finds it in */
            answer = freeze_queue_leave(&me->tag, slot);
        }
        need(!freeze_queue_is_refused(answer), freeze_queue_text(answer));
        if_drained(answer);
        atomic_fetch_add(&me->turns, 1);
        if (answer != FREEZE_QUEUE_OK || turn % 64 == 0)
            moment();
    }
    return NULL;
}

/* Waits until each thread has ended the turn that it was in, and with it what it was told. */
static void wait_for_turns(void)
{
    for (long i = 0; i < threads; i++)
        for (unsigned long seen = atomic_load(&submitters[i].turns); atomic_load(&submitters[i].turns) == seen;)
            moment();
}

static void collect(uint32_t max)
{
    for (long i = 0; i < threads; i++) {
        all_served += submitters[i].served;
        submitters[i].served = 0;
    }
    setting.max = max;
    setting.chunk = 2 * max;
}

/* Waits for the drain by looking, by setting the limits until that is done, or, where the freeze has drained the queue or
 * somebody is told, by that. */
static void wait_in_some_way(int way, uint32_t answer, unsigned long before, freeze_queue_limits next)
{
    if (way == 0) {
        while (!freeze_queue_poll_drained(&freezer))
            moment();
    } else if (way == 1) {
        while (freeze_queue_set(&freezer, &next) == FREEZE_QUEUE_ERR_NOT_DRAINED)
            moment();
    } else if (answer != FREEZE_QUEUE_DRAINED) {
        while (atomic_load(&told) == before)
            moment();
        need(told_freeze == freeze, "told of another freeze");
    }
}

/* Lets a thread take some turns, and learns nothing by that: relaxed. */
static void let_serve(struct submitter *some)
{
    unsigned long seen = atomic_load_explicit(&some->turns, memory_order_relaxed);
    while (atomic_load_explicit(&some->turns, memory_order_relaxed) < seen + 10)
        moment();
}

static void one_freeze(long i)
{
    uint32_t depth;
    if (i % 4 > 0)
        let_serve(&submitters[i % threads]);
    unsigned long before = atomic_load_explicit(&told, memory_order_relaxed);
    freeze_queue_limits next = setting;
    next.max = 1 + (uint32_t)i % 64;
    next.chunk = 2 * next.max;
    freeze = i;
    uint32_t answer = freeze_queue_start_freeze(&freezer, &depth);
    need(!freeze_queue_is_refused(answer), "a freeze");
    wait_in_some_way((int)(i % WAYS), answer, before, next);
    collect(next.max);
    need(freeze_queue_set(&freezer, &setting) == FREEZE_QUEUE_OK, "a set");
    /* After OK somebody is told; after DRAINED maybe. */
    if (answer == FREEZE_QUEUE_DRAINED)
        wait_for_turns();
    while (answer == FREEZE_QUEUE_OK && atomic_load(&told) == before)
        moment();
    need(freeze_queue_thaw(&freezer, &depth) == FREEZE_QUEUE_LIVE_AGAIN, "a thaw");
}

int main(int argc, char **argv)
{
    long freezes = argc > 1 ? atol(argv[1]) : 1000, served = 0;
    freeze_queue_final last;
    threads = argc > 2 ? atol(argv[2]) : 4;
    need(threads >= 1 && threads <= MOST, "1 to 8 threads");
    need(freeze_queue_new(&freezer, &setting, (uint32_t)threads, (uint32_t)threads) == FREEZE_QUEUE_OK, "no queue");
    for (long i = 0; i < threads; i++)
        need(freeze_queue_next_tag(&freezer, &submitters[i].tag) == FREEZE_QUEUE_OK &&
                 pthread_create(&submitters[i].thread, NULL, serve, &submitters[i]) == 0, "no thread");
    for (long i = 0; i < freezes; i++)
        one_freeze(i);
    atomic_store_explicit(&over, true, memory_order_relaxed);
    for (long i = 0; i < threads; i++) {
        pthread_join(submitters[i].thread, NULL);
        served += submitters[i].in_all;
        need(freeze_queue_give_tag_back(&freezer, &submitters[i].tag) == FREEZE_QUEUE_OK, "a tag");
    }
    collect(1);
    need(freeze_queue_remove(&freezer, &last) == FREEZE_QUEUE_OK, "no removal");
    need(last.kills == (uint64_t)freezes + 1 && last.releases == last.kills, "what is left");
    printf("%s\n", served == all_served ? "as many" : "LOST");
    return served != all_served;
}
