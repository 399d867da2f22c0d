/* Included before a test (-include), so that the steps of the waits and of the pool lie apart: before each of them a thread
 * sometimes lets others run, or sleeps for a moment. What a right order of steps excludes is then soon seen in a wrong one. */
#ifndef DAWDLE_H
#define DAWDLE_H
#define _POSIX_C_SOURCE 200809L
#include <pthread.h>
#include <sched.h>
#include <stdint.h>
#include <time.h>

#include "../moment.h"

static inline void dawdle(void)
{
    static __thread uint32_t seed;
    if (seed == 0)
        seed = (uint32_t)(uintptr_t)&seed | 1;
    seed = seed * 1664525 + 1013904223;
    if (seed >> 26 == 0) {
        struct timespec moment = {0, 20000};
        nanosleep(&moment, NULL);
    } else if (seed >> 29 == 1)
        gives_way();
}

#define pthread_mutex_lock(lock) (dawdle(), pthread_mutex_lock(lock))
#define pthread_cond_wait(condition, lock) (dawdle(), pthread_cond_wait(condition, lock))
#define pthread_cond_timedwait(condition, lock, until) (dawdle(), pthread_cond_timedwait(condition, lock, until))
#define __atomic_load_n(at, order) (dawdle(), __atomic_load_n(at, order))
#define __atomic_store_n(at, value, order) (dawdle(), __atomic_store_n(at, value, order))
#define __atomic_compare_exchange_n(at, was, value, weak, order, other) \
    (dawdle(), __atomic_compare_exchange_n(at, was, value, weak, order, other))
#define __atomic_exchange_n(at, value, order) (dawdle(), __atomic_exchange_n(at, value, order))
#define __atomic_fetch_and(at, value, order) (dawdle(), __atomic_fetch_and(at, value, order))
#endif
