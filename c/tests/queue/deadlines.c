/* Deadlines so near and so far as there are: each lies as many nanoseconds from now as was asked, and one that is
 * centuries away doesn't pass. */
#define _POSIX_C_SOURCE 200809L
#include "inline.h"
#include <stdbool.h>
#include <stdio.h>
#include <stdlib.h>
#include <time.h>

static const struct timespec *stands; /* what the clock shows, unless this is NULL */
static int shows(clockid_t clock, struct timespec *at)
{
    if (!stands)
        return clock_gettime(clock, at);
    *at = *stands;
    return 0;
}
#define clock_gettime shows
#include "freeze_queue_pool.h"
#include "takes_waiting.h"
#include "../is.h"

#define IS(call, want) is(#call, call, FREEZE_QUEUE_##want, __LINE__)

static struct timespec later_by(struct timespec at, int64_t seconds, long nanoseconds)
{
    at.tv_sec += seconds;
    at.tv_nsec += nanoseconds;
    if (at.tv_nsec >= 1000000000) {
        at.tv_sec++;
        at.tv_nsec -= 1000000000;
    }
    return at;
}

static bool is_in_order(struct timespec first, struct timespec then)
{
    return first.tv_sec < then.tv_sec || (first.tv_sec == then.tv_sec && first.tv_nsec <= then.tv_nsec);
}

/* Asked for a number of nanoseconds, which is given as seconds and what is over, too. */
static void lies_there(uint64_t asked, int64_t seconds, long nanoseconds)
{
    struct timespec before, after;
    clock_gettime(CLOCK_MONOTONIC, &before);
    struct timespec at = freeze_queue_deadline(asked);
    clock_gettime(CLOCK_MONOTONIC, &after);
    TELLS(at.tv_nsec >= 0 && at.tv_nsec < 1000000000, true);
    TELLS(is_in_order(later_by(before, seconds, nanoseconds), at), true);
    TELLS(is_in_order(at, later_by(after, seconds, nanoseconds)), true);
}

/* Nanoseconds that add up to a second, to one less and to one more. */
static void carries_a_second(void)
{
    const struct timespec now = {5, 300000000};
    stands = &now;
    for (int64_t off = -1; off <= 1; off++) {
        struct timespec at = freeze_queue_deadline((uint64_t)(700000000 + off));
        TELLS(at.tv_sec, off < 0 ? 5 : 6);
        TELLS(at.tv_nsec, off < 0 ? 999999999 : (uint64_t)off);
    }
    stands = NULL;
}

static freeze_queue freezer;
static freeze_queue_waits waits;
static freeze_queue_pool pool;
static freeze_queue_tag *inside;

/* What each of the three waits for, 20 milliseconds later. */
static void later(void)
{
    struct timespec at = freeze_queue_deadline(20000000);
    while (clock_nanosleep(CLOCK_MONOTONIC, TIMER_ABSTIME, &at, NULL)) {}
}

static void *leaves(void *of)
{
    later();
    return freeze_queue_waits_leave(&waits, inside, 0) == FREEZE_QUEUE_OK ? of : NULL;
}

static void *thaws(void *of)
{
    later();
    return freeze_queue_waits_thaw(&waits) == FREEZE_QUEUE_LIVE_AGAIN ? of : NULL;
}

static void *gives(void *of)
{
    later();
    freeze_queue_pool_give(&pool, inside);
    return of;
}

static pthread_t begin(void *(*act)(void *))
{
    pthread_t thread;
    if (pthread_create(&thread, NULL, act, &waits))
        exit(2);
    return thread;
}

static void end(pthread_t thread)
{
    void *done = NULL;
    pthread_join(thread, &done);
    TELLS(done == &waits, true);
}

/* Each wait, by a deadline that is far away. */
static void waits_until(struct timespec far)
{
    inside = freeze_queue_pool_take(&pool, 0);
    IS(freeze_queue_waits_enter(&waits, inside, 0, &far), OK);
    pthread_t thread = begin(leaves);
    IS(freeze_queue_waits_freeze(&waits, &far), OK);
    end(thread);
    thread = begin(thaws);
    IS(freeze_queue_waits_enter(&waits, inside, 0, &far), OK);
    end(thread);
    IS(freeze_queue_waits_leave(&waits, inside, 0), OK);
    thread = begin(gives);
    TELLS(takes_waiting(&pool, 0, &far) == inside, true);
    end(thread);
    freeze_queue_pool_give(&pool, inside);
}

int main(void)
{
    const freeze_queue_limits limits = {8, 0, 0, 1};
    freeze_queue_final last;
    carries_a_second();
    lies_there(0, 0, 0);
    lies_there(1, 0, 1);
    for (int i = 0; i < 1000; i++) { /* from each part of a second */
        lies_there(999999999, 0, 999999999);
        lies_there(1500000000, 1, 500000000);
    }
    lies_there(1000000000, 1, 0);
    lies_there(UINT64_MAX - 999999999, 18446744072, 709551616);
    lies_there(UINT64_MAX, 18446744073, 709551615);
    if (freeze_queue_new(&freezer, &limits, 1, 1) || freeze_queue_waits_init(&waits, &freezer) ||
        freeze_queue_pool_fill(&pool, &waits, 1))
        return 1;
    waits_until(freeze_queue_deadline(UINT64_MAX));
    waits_until(freeze_queue_deadline(UINT64_MAX - 999999999));
    waits_until(freeze_queue_deadline((uint64_t)1 << 63));
    IS(freeze_queue_pool_empty(&pool), OK);
    IS(freeze_queue_remove(&freezer, &last), OK);
    freeze_queue_waits_destroy(&waits);
    printf("%s\n", failures ? "FAILED" : "as far as asked");
    return failures != 0;
}
