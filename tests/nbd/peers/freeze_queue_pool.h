/* The functions of the queue that the plugin calls, with the same names and results, so that the plugin can be built without the queue. If
 * RWLOCK names a kind of lock (PTHREAD_RWLOCK_PREFER_READER_NP, ..), each request holds that lock for reading and a freeze holds it for
 * writing. Otherwise the functions do nothing. */
#ifndef PEER_FREEZE_QUEUE_POOL_H
#define PEER_FREEZE_QUEUE_POOL_H

#undef FREEZE_QUEUE_INLINE /* nothing of the queue is compiled in */
#include <freeze_queue.h>
#include <pthread.h>
#include <stdatomic.h>
#include <sys/eventfd.h>
#include <time.h>
#include <unistd.h>

typedef struct freeze_queue_waits {
    pthread_rwlock_t lock;
    uint32_t depth; /* of the control's thread alone, which holds the lock while it isn't 0 */
    atomic_bool is_dying;
    int drained_event;
} freeze_queue_waits;

typedef struct freeze_queue_pooled {
    freeze_queue_tag tag;
} __attribute__((aligned(128))) freeze_queue_pooled;

/* The requests of a slot share a tag, so their counts aren't exact. */
typedef struct freeze_queue_pool {
    freeze_queue_pooled tags[FREEZE_QUEUE_MOST_TAGS];
} freeze_queue_pool;

__attribute__((weak)) freeze_queue_limits peer_limits; /* in force */

/* ---- Made and ended ---- */

static inline uint32_t peer_new(const freeze_queue_limits *limits)
{
    uint32_t piece;
    peer_limits = *limits;
    if (peer_limits.max == 0)
        peer_limits.max = peer_limits.hardware;
    return freeze_queue_first_piece(limits, 0, 1, &piece);
}

static inline uint32_t freeze_queue_waits_init(freeze_queue_waits *waits, freeze_queue *queue)
{
    (void)queue, (void)waits;
#ifdef RWLOCK
    pthread_rwlockattr_t kind;
    pthread_rwlockattr_init(&kind);
    pthread_rwlockattr_setkind_np(&kind, RWLOCK);
    return pthread_rwlock_init(&waits->lock, &kind) ? FREEZE_QUEUE_ERR_NO_MEMORY : FREEZE_QUEUE_OK;
#else
    return FREEZE_QUEUE_OK;
#endif
}

#define freeze_queue_new(queue, limits, slots, tags) peer_new(limits)
#define freeze_queue_pool_fill(pool, waits, count) FREEZE_QUEUE_OK
static inline uint32_t freeze_queue_waits_mark_dying(freeze_queue_waits *waits)
{
    atomic_store(&waits->is_dying, true);
    return FREEZE_QUEUE_OK;
}

static inline bool freeze_queue_waits_is_dying(freeze_queue_waits *waits) { return atomic_load(&waits->is_dying); }

#define freeze_queue_pool_end(pool, deadline) ((void)(deadline), FREEZE_QUEUE_OK)
#define freeze_queue_pool_destroy(pool) ((void)(pool))
#define freeze_queue_pool_in_flight(pool, list, room) 0
#define freeze_queue_waits_end(waits, last, deadline) ((last)->kills = 0, FREEZE_QUEUE_OK)

/* ---- Requests ---- */

static inline struct timespec freeze_queue_deadline(uint64_t nanoseconds)
{
    struct timespec at;
    clock_gettime(CLOCK_MONOTONIC, &at);
    nanoseconds += (uint64_t)at.tv_nsec;
    at.tv_sec += (time_t)(nanoseconds / 1000000000);
    at.tv_nsec = (long)(nanoseconds % 1000000000);
    return at;
}

static inline uint32_t freeze_queue_waits_try_enter(freeze_queue_waits *waits, freeze_queue_tag *tag, uint32_t slot)
{
    (void)waits, (void)tag, (void)slot;
#ifdef RWLOCK
    return pthread_rwlock_tryrdlock(&waits->lock) == 0 ? FREEZE_QUEUE_OK : FREEZE_QUEUE_NOT_ENTERED;
#else
    return FREEZE_QUEUE_OK;
#endif
}

static inline uint32_t freeze_queue_waits_enter(freeze_queue_waits *waits, freeze_queue_tag *tag, uint32_t slot,
                                                const struct timespec *deadline)
{
    (void)tag, (void)slot;
    return pthread_rwlock_clockrdlock(&waits->lock, CLOCK_MONOTONIC, deadline) == 0 ? FREEZE_QUEUE_OK
                                                                                    : FREEZE_QUEUE_ERR_TIMED_OUT;
}

static inline uint32_t freeze_queue_waits_leave(freeze_queue_waits *waits, freeze_queue_tag *tag, uint32_t slot)
{
    (void)waits, (void)tag, (void)slot;
#ifdef RWLOCK
    pthread_rwlock_unlock(&waits->lock);
#endif
    return FREEZE_QUEUE_OK;
}

static inline freeze_queue_tag *freeze_queue_pool_take(freeze_queue_pool *pool, uint32_t hint)
{
    return &pool->tags[hint].tag;
}

static inline uint32_t peer_limits_of(const freeze_queue_tag *tag, freeze_queue_limits *limits)
{
    (void)tag;
    *limits = peer_limits;
    return FREEZE_QUEUE_OK;
}

#define freeze_queue_pool_take_waiting(pool, hint, deadline, taken) \
    ((void)(deadline), *(taken) = &(pool)->tags[hint].tag, FREEZE_QUEUE_OK)
#define freeze_queue_pool_give(pool, tag) ((void)(tag))
#define freeze_queue_limits_of peer_limits_of

/* ---- The control ---- */

/* Where others wait in poll for the drain, this waits for it. */
static inline uint32_t freeze_queue_waits_begin_freeze(freeze_queue_waits *waits)
{
#ifdef RWLOCK
    if (waits->depth == 0)
        pthread_rwlock_wrlock(&waits->lock);
#endif
    waits->depth++;
    return FREEZE_QUEUE_DRAINED;
}

static inline bool freeze_queue_waits_is_drained(const freeze_queue_waits *waits) { return waits->depth > 0; }

static inline int freeze_queue_waits_drained_event(freeze_queue_waits *waits) { return waits->drained_event; }
static inline uint32_t freeze_queue_waits_open_events(freeze_queue_waits *waits)
{
    waits->drained_event = -1;
    return 0;
}

static inline uint32_t freeze_queue_waits_thaw(freeze_queue_waits *waits)
{
    if (waits->depth == 0)
        return FREEZE_QUEUE_ERR_NOT_FROZEN;
    waits->depth--;
#ifdef RWLOCK
    if (waits->depth == 0)
        pthread_rwlock_unlock(&waits->lock);
#endif
    return FREEZE_QUEUE_OK;
}

static inline uint32_t freeze_queue_waits_set(freeze_queue_waits *waits, const freeze_queue_limits *limits)
{
    (void)waits;
    return peer_new(limits);
}

static inline uint32_t freeze_queue_waits_depth(const freeze_queue_waits *waits, uint32_t *depth)
{
    *depth = waits->depth;
    return FREEZE_QUEUE_OK;
}

static inline uint32_t freeze_queue_waits_limits(const freeze_queue_waits *waits, freeze_queue_limits *limits)
{
    (void)waits;
    *limits = peer_limits;
    return FREEZE_QUEUE_OK;
}

#define freeze_queue_waits_mode(waits, mode) ((mode) <= FREEZE_QUEUE_MODE_ATOMIC ? FREEZE_QUEUE_OK : FREEZE_QUEUE_ERR_BAD_MODE)

#endif
