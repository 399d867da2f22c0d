/* Freezes by one thread or two while others submit and wait: a wake that is lost hangs (of one thread each), and plain
 * memory that the queue guards would be a race under the thread sanitizer wherever the headers don't tell it the order.
 * Submitters write a count of their own under their tag, and read the setting that lies beside the queue's; who has drained
 * the queue reads the counts and writes the setting. Words: freezes, submitters, tags (fewer than submitters: these wait for
 * one), freezers. */
#define _POSIX_C_SOURCE 200809L
#include "inline.h"
#include "freeze_queue_pool.h"
#include "takes_waiting.h"
#include "../need.h"

#include <stdio.h>
#include <stdlib.h>

enum { MOST = 8, MOST_FREEZERS = 2 };

static freeze_queue freezer;
static freeze_queue_waits waits;
static freeze_queue_pool pool;
static freeze_queue_limits setting = {.hardware = 64, .max = 64, .chunk = 0, .physical = 1}; /* plain */
static bool over;
static long freezes, freezers, all_served;

static struct submitter {
    pthread_t thread __attribute__((aligned(128)));
    long served, in_all, gave_up; /* served since a drain was seen; requests; deadlines that passed */
    uint32_t number;
} submitters[MOST];

static struct changer { pthread_t thread; uint32_t number; long drained, gave_up; } changers[MOST_FREEZERS];

static bool enters(struct submitter *me, freeze_queue_tag *tag, long turn)
{
    struct timespec soon = freeze_queue_deadline(20000);
    uint32_t answer = freeze_queue_waits_enter(&waits, tag, me->number, turn % 8 ? NULL : &soon);
    need(answer == FREEZE_QUEUE_OK || (turn % 8 == 0 && answer == FREEZE_QUEUE_ERR_TIMED_OUT), "an entering");
    me->gave_up += answer != FREEZE_QUEUE_OK;
    return answer == FREEZE_QUEUE_OK;
}

static void *submit(void *of)
{
    struct submitter *me = of;
    freeze_queue_limits limits;
    for (long turn = 0; !__atomic_load_n(&over, __ATOMIC_RELAXED); turn++) {
        freeze_queue_tag *tag = takes_waiting(&pool, me->number, NULL);
        if (enters(me, tag, turn)) {
            need(freeze_queue_limits_of(tag, &limits) == FREEZE_QUEUE_OK, "limits");
            need(limits.max == setting.max && limits.chunk == setting.chunk, "another setting");
            me->served++;
            me->in_all++;
            need(freeze_queue_waits_leave(&waits, tag, me->number) == FREEZE_QUEUE_OK, "a leaving");
        }
        freeze_queue_pool_give(&pool, tag);
    }
    return NULL;
}

/* While the queue is drained: the counts are read, and a setting is made. Under the lock, since two threads freeze. */
static void change(uint32_t max)
{
    freeze_queue_waits_lock(IN_WAITS);
    for (int i = 0; i < MOST; i++) {
        all_served += submitters[i].served;
        submitters[i].served = 0;
    }
    setting.max = max;
    setting.chunk = 4 * max;
    need(freeze_queue_set(&freezer, &setting) == FREEZE_QUEUE_OK, "a set");
    freeze_queue_waits_unlock(IN_WAITS);
}

static void *freeze(void *of)
{
    struct changer *me = of;
    for (long i = 0; i < freezes; i++) {
        struct timespec soon = freeze_queue_deadline(2000);
        bool waits_on = (i + me->number) % 4 > 0;
        uint32_t answer = freeze_queue_waits_freeze(&waits, waits_on ? NULL : &soon);
        if (answer == FREEZE_QUEUE_ERR_TIMED_OUT && !waits_on) {
            me->gave_up++;
            continue;
        }
        need(answer == FREEZE_QUEUE_OK, "a freeze");
        me->drained++;
        change(1 + (uint32_t)i % 64);
        answer = freeze_queue_waits_thaw(&waits);
        need(answer == FREEZE_QUEUE_OK || answer == FREEZE_QUEUE_LIVE_AGAIN, "a thaw");
    }
    return NULL;
}

static void run(long threads)
{
    for (uint32_t i = 0; i < threads; i++) {
        submitters[i].number = i;
        need(pthread_create(&submitters[i].thread, NULL, submit, &submitters[i]) == 0, "no thread");
    }
    for (uint32_t i = 0; i < freezers; i++) {
        changers[i].number = i;
        need(pthread_create(&changers[i].thread, NULL, freeze, &changers[i]) == 0, "no thread");
    }
    for (long i = 0; i < freezers; i++)
        pthread_join(changers[i].thread, NULL);
    __atomic_store_n(&over, true, __ATOMIC_RELAXED);
    for (long i = 0; i < threads; i++)
        pthread_join(submitters[i].thread, NULL);
}

int main(int argc, char **argv)
{
    freeze_queue_final last;
    long served = 0, gave_up = 0;
    long threads = argc > 2 ? atol(argv[2]) : 4;
    uint32_t tags = argc > 3 ? (uint32_t)atol(argv[3]) : 4;
    freezers = argc > 4 ? atol(argv[4]) : MOST_FREEZERS;
    need(threads >= 1 && threads <= MOST && freezers >= 1 && freezers <= MOST_FREEZERS, "1 to 8 submitters, 1 or 2 freezers");
    freezes = (argc > 1 ? atol(argv[1]) : 10000) / freezers;
    need(freeze_queue_new(&freezer, &setting, (uint32_t)threads, tags) == FREEZE_QUEUE_OK, "no queue");
    need(freeze_queue_set(&freezer, &setting) == FREEZE_QUEUE_ERR_NOT_FROZEN, "a set while live");
    need(freeze_queue_waits_init(&waits, &freezer) == 0 && freeze_queue_pool_fill(&pool, &waits, tags) == 0, "no waits");
    run(threads);
    need(freeze_queue_pool_empty(&pool) == FREEZE_QUEUE_OK, "tags are out");
    need(freeze_queue_remove(&freezer, &last) == FREEZE_QUEUE_OK, "no removal");
    freeze_queue_waits_destroy(&waits);
    for (long i = 0; i < threads; i++) {
        served += submitters[i].in_all;
        all_served += submitters[i].served;
        gave_up += submitters[i].gave_up;
    }
    need(last.kills >= last.releases && last.limits.max == setting.max, "what is left");
    printf("%s: %ld requests, %ld gave up; %ld freezes drained, %ld gave up\n", served == all_served ? "as many" : "LOST", served,
           gave_up, changers[0].drained + changers[1].drained, changers[0].gave_up + changers[1].gave_up);
    return served != all_served;
}
