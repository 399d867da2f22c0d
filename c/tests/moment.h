/* Included by tests: a moment in which other threads go on. Where other programs want the processor as well, sched_yield would give it
 * away for milliseconds. */
#ifndef MOMENT_H
#define MOMENT_H
#include <sched.h>
#include <time.h>

static inline void moment(void)
{
    const struct timespec microsecond = {0, 1000};
    nanosleep(&microsecond, NULL);
}

/* A yield; and a thousand moments in place of the next ones where it took more than a millisecond. */
static inline void gives_way(void)
{
    static __thread int moments;
    struct timespec before, after;
    if (moments > 0) {
        moments--;
        moment();
        return;
    }
    clock_gettime(CLOCK_MONOTONIC, &before);
    sched_yield();
    clock_gettime(CLOCK_MONOTONIC, &after);
    if ((after.tv_sec - before.tv_sec) * 1000000000L + after.tv_nsec - before.tv_nsec > 1000000)
        moments = 1000;
}
#endif
