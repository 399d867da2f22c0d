/* Checks for misuse, if a program defines FREEZE_QUEUE_DEBUG. A part of freeze_queue_waits.h, which includes it. */
#ifndef FREEZE_QUEUE_WAITS_H
#error "include freeze_queue_waits.h"
#endif
#ifndef FREEZE_QUEUE_DEBUG_H
#define FREEZE_QUEUE_DEBUG_H

#include <pthread.h>

#ifdef FREEZE_QUEUE_DEBUG
#include <stdio.h>
#include <stdlib.h>
#include <string.h>

__attribute__((noinline, cold, noreturn, unused)) static void freeze_queue_aborts(const char *misuse)
{
    fprintf(stderr, "freeze_queue: %s\n", misuse);
    abort();
}

/* Aborts with a message if a condition doesn't hold. */
#define FREEZE_QUEUE_CHECK(holds, misuse) ((holds) ? (void)0 : freeze_queue_aborts(misuse))
#else
#define FREEZE_QUEUE_CHECK(holds, misuse) ((void)0)
#endif

/* Takes a lock. A thread that has it already aborts if FREEZE_QUEUE_DEBUG is defined, and otherwise waits forever. */
static inline void freeze_queue_locks(pthread_mutex_t *lock)
{
#ifdef FREEZE_QUEUE_DEBUG
    const int refused = pthread_mutex_lock(lock);
    if (refused)
        freeze_queue_aborts(strerror(refused));
#else
    pthread_mutex_lock(lock);
#endif
}

#endif
