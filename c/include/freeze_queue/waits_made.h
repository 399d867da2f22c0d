/* The state of a freeze_queue_waits, and how it is made and destroyed: bodies of calls of freeze_queue_waits.h, which includes this
 * file. */
#ifndef FREEZE_QUEUE_WAITS_H
#error "include freeze_queue_waits.h"
#endif
#ifndef FREEZE_QUEUE_WAITS_MADE_H
#define FREEZE_QUEUE_WAITS_MADE_H

#include "debug.h"
#include <errno.h>
#include <pthread.h>
#include <stdlib.h>
#if defined(__linux__)
#include <sys/eventfd.h>
#include <unistd.h>
#endif

/* The nanoseconds for which freeze, change and update poll for the drain before they sleep; a call polls for the lock for twice
 * as long. A running thread leaves within that time, and sleeping and waking takes longer. A program with
 * FREEZE_QUEUE_INLINE may define another number; with 0 calls sleep at once. */
#ifndef FREEZE_QUEUE_LOOK
#define FREEZE_QUEUE_LOOK 1000
#endif
#define FREEZE_QUEUE_APART __attribute__((noinline, cold, unused)) static

/* A call that waits until another wakes it, or has begun a freeze. It sleeps on its own condition, or on live if it couldn't make one;
 * `on` is NULL while it doesn't sleep. is_thawed tells it that another thread has thawed its freeze. */
typedef struct freeze_queue_waiter {
    struct freeze_queue_waiter *after;
    pthread_cond_t *on;
    bool is_woken;
    bool is_thawed;
} freeze_queue_waiter;

/* Calls in the order in which they came. */
typedef struct freeze_queue_line {
    freeze_queue_waiter *first;
    freeze_queue_waiter *last;
} freeze_queue_line;

/* The state in a freeze_queue_waits, whose address is self.
 *
 * The queue is called under the lock: the word taken, and the line of calls that wait for it, each of which gets it in its turn. The lock
 * protects: inside, the number of calls that wait for a drain or a turn or run a function; the line turns of changes and updates, of which
 * one has its turn while is_changing; the list frozen of calls that have begun a freeze, without those whose freeze was thawed; ender, the
 * call of freeze_queue_waits_end that waits; is_ending while one does; is_calling while the function of an update runs, on thread caller;
 * and sets, the number of successful calls of freeze_queue_waits_set.
 *
 * The guard is held for moments only. It protects the line of the lock, and sleeping. entering calls sleep on live, for the thaw.
 *
 * shown and limits are for looks that take no lock: shown has the depth, whether the queue is drained and whether a freeze begins. The
 * events are -1 if they aren't open, and events_of is the process that opened them; raised and wanted are what they tell, and what they are
 * to tell. number is the queue's.
 *
 * Requests read freezes and unbiased_until, which lie some 100 bytes after what other calls write under the lock. freezes counts the
 * freezes that take biases away, starting at 1; a tag has the count that was read when it was biased. No tag is biased until the
 * time unbiased_until, in nanoseconds; 0 means that tags may be biased now. has_biased is 1 once a tag may have a bias. The lock
 * protects the pause in which no tag is biased: when it ends, its length, and its length in times of what taking the biases took. */
typedef struct freeze_queue_waits_state {
    freeze_queue_waits *self;
    freeze_queue *queue;
    pthread_mutex_t guard;
    pthread_cond_t live;
    uint32_t taken;
    uint32_t entering;
    freeze_queue_line line;
    freeze_queue_line turns;
    freeze_queue_line frozen;
    freeze_queue_waiter *ender;
    uint64_t sets;
    pthread_t caller;
    uint64_t pause_end;
    uint64_t pause_length;
    uint64_t pause_times;
    uint32_t inside;
    uint32_t is_dying;
    bool is_changing;
    bool is_calling;
    bool is_ending;
    uint8_t raised;
    uint8_t wanted;
    uint32_t shown;
    uint64_t limits;
    char apart[64];
    uint64_t number; /* these four stay as they are from before the first request on */
    int64_t events_of;
    int drained_event;
    int live_event;
    uint64_t freezes;
    uint64_t unbiased_until;
    uint8_t has_biased;
} __attribute__((may_alias)) freeze_queue_waits_state;

#if defined(__cplusplus) || __STDC_VERSION__ >= 201112L
static_assert(sizeof(freeze_queue_waits_state) + 128 <= sizeof(freeze_queue_waits), "later versions have 128 bytes");
#endif

static inline freeze_queue_waits_state *freeze_queue_waits_state_of(freeze_queue_waits *of)
{
    freeze_queue_waits_state *waits = (freeze_queue_waits_state *)(void *)of;
    FREEZE_QUEUE_CHECK(waits->self == of, "a call of waits that aren't initialized, or were moved, destroyed or ended");
    return waits;
}

FREEZE_QUEUE_CALL struct timespec freeze_queue_deadline(uint64_t nanoseconds)
{
    struct timespec at;
    clock_gettime(CLOCK_MONOTONIC, &at);
    at.tv_sec += (time_t)(nanoseconds / 1000000000);
    at.tv_nsec += (long)(nanoseconds % 1000000000);
    if (at.tv_nsec >= 1000000000) {
        at.tv_sec++;
        at.tv_nsec -= 1000000000;
    }
    return at;
}

/* ---- Internal: looks ---- */

/* Whether a deadline is NULL, or its nanoseconds are from 0 to 999,999,999. */
static inline bool freeze_queue_is_deadline(const struct timespec *deadline)
{
    return deadline == NULL || (unsigned long)deadline->tv_nsec < 1000000000;
}

/* Pauses briefly between two polls, and returns whether the clock is before a time. */
static inline bool freeze_queue_waits_goes_on(const struct timespec *until)
{
    struct timespec now;
#if defined(__x86_64__) || defined(__i386__)
    __builtin_ia32_pause();
#elif defined(__aarch64__)
    __asm__ __volatile__("isb" : : : "memory");
#endif
    clock_gettime(CLOCK_MONOTONIC, &now);
    return now.tv_sec < until->tv_sec || (now.tv_sec == until->tv_sec && now.tv_nsec < until->tv_nsec);
}

/* ---- Internal: cancellation. A thread isn't cancelled in a call that waits: it would leave its freeze, its turn or the lock behind. ---- */

static inline int freeze_queue_isnt_cancelled(void)
{
    int before = 0;
    pthread_setcancelstate(PTHREAD_CANCEL_DISABLE, &before);
    return before;
}
static inline void freeze_queue_may_be_cancelled(int before)
{
    int now;
    pthread_setcancelstate(before, &now);
}

/* ---- Internal: conditions ---- */

/* Sleeps on a condition by a mutex. Returns false if the deadline has passed. */
static inline bool freeze_queue_sleeps_on(pthread_cond_t *condition, pthread_mutex_t *lock, const struct timespec *deadline)
{
    if (deadline)
        return pthread_cond_timedwait(condition, lock, deadline) == 0;
    pthread_cond_wait(condition, lock);
    return true;
}

/* Makes a condition variable on CLOCK_MONOTONIC. Returns 0, or the error of the call that failed. */
static inline int freeze_queue_new_condition(pthread_cond_t *condition)
{
    pthread_condattr_t monotonic;
    int refused = pthread_condattr_init(&monotonic);
    if (refused)
        return refused;
    refused = pthread_condattr_setclock(&monotonic, CLOCK_MONOTONIC);
    if (!refused)
        refused = pthread_cond_init(condition, &monotonic);
    pthread_condattr_destroy(&monotonic);
    return refused;
}

/* Makes a mutex. Returns 0, or the error of the call that failed. */
static inline int freeze_queue_new_lock(pthread_mutex_t *lock)
{
#ifdef FREEZE_QUEUE_DEBUG
    pthread_mutexattr_t checking;
    int refused = pthread_mutexattr_init(&checking);
    if (refused)
        return refused;
    pthread_mutexattr_settype(&checking, PTHREAD_MUTEX_ERRORCHECK);
    refused = pthread_mutex_init(lock, &checking);
    pthread_mutexattr_destroy(&checking);
    return refused;
#else
    return pthread_mutex_init(lock, NULL);
#endif
}

#include "waits_lock.h"

/* ---- Internal: made and destroyed ---- */

/* Makes a mutex and a condition variable; if one is refused, makes neither and returns false. */
static inline bool freeze_queue_makes(pthread_mutex_t *lock, pthread_cond_t *condition)
{
    if (freeze_queue_new_lock(lock) != 0)
        return false;
    if (freeze_queue_new_condition(condition) == 0)
        return true;
    pthread_mutex_destroy(lock);
    return false;
}

/* Closes the events, destroys the mutex and the condition variable, and leaves the queue without waits. Call it under the lock. */
static inline void freeze_queue_waits_goes(freeze_queue_waits_state *waits)
{
    freeze_queue_locks(&waits->guard); /* a call that handed over the lock has released it by then */
    pthread_mutex_unlock(&waits->guard);
#if defined(__linux__)
    if (waits->drained_event >= 0)
        close(waits->drained_event);
    if (waits->live_event >= 0)
        close(waits->live_event);
#endif
    pthread_cond_destroy(&waits->live);
    pthread_mutex_destroy(&waits->guard);
    waits->queue->reserved.words[0] = NULL;
    waits->self = NULL;
}

/* ---- Made and destroyed ---- */

FREEZE_QUEUE_CALL freeze_queue_answer freeze_queue_waits_init(freeze_queue_waits *of, freeze_queue *queue)
{
    freeze_queue_waits_state *waits = (freeze_queue_waits_state *)(void *)of;
    const uint64_t number = freeze_queue_number(queue);
    if (number == 0)
        return FREEZE_QUEUE_ERR_CLOSED;
    if (queue->reserved.words[0] != NULL)
        return FREEZE_QUEUE_ERR_IN_USE;
    if (!freeze_queue_makes(&waits->guard, &waits->live))
        return FREEZE_QUEUE_ERR_NO_MEMORY;
    waits->self = of;
    waits->queue = queue;
    waits->drained_event = waits->live_event = -1;
    waits->events_of = 0;
    waits->raised = waits->wanted = 0;
    waits->number = number;
    waits->line.first = waits->turns.first = waits->frozen.first = waits->ender = NULL;
    waits->taken = waits->entering = waits->inside = waits->is_dying = waits->shown = 0;
    waits->is_changing = waits->is_calling = waits->is_ending = false;
    waits->sets = 0;
    waits->freezes = 1;
    waits->unbiased_until = 0;
    waits->has_biased = 0;
    waits->pause_end = waits->pause_length = waits->pause_times = 0;
    queue->reserved.words[0] = of;
    freeze_queue_waits_notify(of);
    return FREEZE_QUEUE_OK;
}

FREEZE_QUEUE_CALL freeze_queue_answer freeze_queue_waits_destroy(freeze_queue_waits *of)
{
    freeze_queue_waits_state *waits = (freeze_queue_waits_state *)(void *)of;
    if (waits->self != of)
        return FREEZE_QUEUE_ERR_CLOSED;
    freeze_queue_waits_lock(waits);
    const bool is_in_use = waits->inside > 0 || waits->is_ending || __atomic_load_n(&waits->entering, __ATOMIC_SEQ_CST) > 0;
    if (is_in_use)
        freeze_queue_waits_unlock(waits);
    else
        freeze_queue_waits_goes(waits);
    return is_in_use ? FREEZE_QUEUE_ERR_IN_USE : FREEZE_QUEUE_OK;
}

FREEZE_QUEUE_CALL freeze_queue_waits *freeze_queue_waits_new(freeze_queue *queue)
{
    freeze_queue_waits *waits = (freeze_queue_waits *)calloc(1, sizeof *waits);
    if (waits != NULL && freeze_queue_waits_init(waits, queue) != FREEZE_QUEUE_OK) {
        free(waits);
        waits = NULL;
    }
    return waits;
}

FREEZE_QUEUE_CALL freeze_queue_answer freeze_queue_waits_free(freeze_queue_waits *of)
{
    if (((freeze_queue_waits_state *)(void *)of)->self == of)
        return FREEZE_QUEUE_ERR_OPEN;
    free(of);
    return FREEZE_QUEUE_OK;
}

#endif
