/* Included before freeze_queue_waits.h or freeze_queue_pool.h: their locks and conditions are watched, with one thread and
 * a script. Where a call would sleep, the next of the script acts as another thread would, and has to wake it; where one
 * would lock or unlock, others may act before or after. The lock of the waits is the only word of 32 bits that is exchanged. So each wake and each look is tried in an order that is the same
 * each time, and a wake that is lost is told at once. */
#ifndef SCRIPTED_H
#define SCRIPTED_H
#include "../is.h"
#include "../need.h"

#include <errno.h>
#include <pthread.h>
#include <stdbool.h>
#include <stdint.h>
#include <stdio.h>
#include <stdlib.h>
#include <time.h>

typedef void (*scripted_act)(void);

static scripted_act script[8], before_lock, after_unlock; /* the script ends with NULL */
static int next_act;
static pthread_mutex_t *locked;   /* the one mutex that is held */
static pthread_mutex_t *guard;    /* of the waits, which doesn't count as a lock */
static bool has_lock, is_others;  /* whether the lock of the waits is held, and by another than who sleeps */
static long locks, broadcasts;    /* how often one was taken, and how often all who sleep were woken */
static struct sleeper {
    pthread_cond_t *on;
    pthread_mutex_t *lock;
    bool woken;
    struct sleeper *outer;
} *asleep; /* the last one first */

#define IS(call, want) is(#call, call, FREEZE_QUEUE_##want, __LINE__)

/* What acts while the next call sleeps, one after another until it is woken. */
static void acts(scripted_act first, scripted_act second, scripted_act third)
{
    const scripted_act all[] = {first, second, third, NULL};
    for (int i = 0; i < 4; i++)
        script[i] = all[i];
    next_act = 0;
}

/* Whether all of the script has acted. */
static bool have_acted(void) { return script[next_act] == NULL; }

static int run_once(scripted_act *slot)
{
    scripted_act act = *slot;
    *slot = NULL;
    if (act)
        act();
    return 0;
}

static int scripted_lock(pthread_mutex_t *lock)
{
    if (!has_lock)
        run_once(&before_lock);
    need(locked == NULL, "a lock is taken while one is held");
    locked = lock;
    locks += lock != guard;
    return 0;
}

static int scripted_unlock(pthread_mutex_t *lock)
{
    need(locked == lock, "a lock is given up that isn't held");
    locked = NULL;
    return has_lock ? 0 : run_once(&after_unlock);
}

/* Takes the lock of the waits, or gives it up. */
static void before_swap(uint32_t word)
{
    if (word != 0 && !has_lock)
        run_once(&before_lock);
}
static bool after_swap(uint32_t was, uint32_t word, bool did)
{
    if (did && was == 0)
        has_lock = true, locks++;
    if (did && word == 0) {
        has_lock = false;
        if (locked == NULL)
            run_once(&after_unlock);
    }
    return did;
}

/* Who sleeps without end and isn't woken by the script is told of. */
static int scripted_sleep(pthread_cond_t *on, pthread_mutex_t *lock, const struct timespec *deadline)
{
    struct sleeper me = {on, lock, false, asleep};
    need(locked == lock, "sleeps by a lock that isn't held");
    const bool had_lock = has_lock;
    need(!has_lock || is_others, "sleeps with the lock of the waits");
    locked = NULL;
    asleep = &me;
    while (!me.woken && script[next_act])
        script[next_act++]();
    asleep = me.outer;
    need(locked == NULL && (is_others || has_lock == had_lock), "another thread kept the lock");
    locked = lock;
    need(me.woken || deadline != NULL, "sleeps for ever");
    return me.woken ? 0 : ETIMEDOUT;
}

/* A broadcast wakes all who sleep, and a signal the one that has slept longest. */
static int scripted_wake(pthread_cond_t *on, bool all)
{
    struct sleeper *oldest = NULL;
    broadcasts += all;
    for (struct sleeper *s = asleep; s; s = s->outer)
        if (s->on == on && !s->woken) {
            need(locked == s->lock, "wakes without the lock");
            s->woken = all;
            oldest = s;
        }
    if (oldest)
        oldest->woken = true;
    return 0;
}

/* Which thread acts: a function of an update is called by the first. */
static int who;
static pthread_t scripted_self(void) { return (pthread_t)who; }

/* Nobody woke it, and yet it wakes. */
static void wakes_by_itself(void) { asleep->woken = true; }

/* The last line of a test, and its status. */
static int told_at_the_end(void)
{
    printf("%s\n", failures ? "FAILED" : "as the script has it");
    return failures != 0;
}

/* A thread sleeps at once, unless a test has a script of the looks. */
#ifndef FREEZE_QUEUE_LOOK
#define FREEZE_QUEUE_LOOK 0
#endif

#define pthread_self scripted_self
#define pthread_mutex_lock scripted_lock
#define pthread_mutex_unlock scripted_unlock
#define pthread_cond_wait(on, lock) scripted_sleep(on, lock, NULL)
#define pthread_cond_timedwait scripted_sleep
#define pthread_cond_broadcast(on) scripted_wake(on, true)
#define pthread_cond_signal(on) scripted_wake(on, false)
#define __atomic_compare_exchange_n(at, was, value, weak, order, other) \
    __extension__({ \
        const bool is_lock = sizeof *(at) == sizeof(uint32_t); \
        if (is_lock) \
            before_swap((uint32_t)(value)); \
        const uint32_t expected = (uint32_t) * (was); \
        const bool did = __atomic_compare_exchange_n(at, was, value, weak, order, other); \
        is_lock ? after_swap(expected, (uint32_t)(value), did) : did; \
    })
#endif
