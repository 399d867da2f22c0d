/* The pool, and how tags are taken and given back: bodies of calls of freeze_queue_pool.h, which includes this file. */
#ifndef FREEZE_QUEUE_POOL_H
#error "include freeze_queue_pool.h"
#endif
#ifndef FREEZE_QUEUE_POOL_BODIES_H
#define FREEZE_QUEUE_POOL_BODIES_H

#include <string.h>

/* ---- Internal: what a pool has ---- */

/* The maximum number of words, and the mark of a word while a call waits for one of its tags. */
enum { FREEZE_QUEUE_POOL_WORDS = 32 };
#define FREEZE_QUEUE_POOL_AWAITED ((uint64_t)1 << 63)

/* A mark for each tag that is out, on 128 bytes of their own. Marks that stand for no tag of this pool are set, too. */
typedef struct freeze_queue_pool_word {
    uint64_t marks;
} __attribute__((aligned(128))) freeze_queue_pool_word;

/* A tag, on 128 bytes of its own: its word and its mark in it, the marks of the word when the tag was taken (0 if
 * freeze_queue_pool_end took it), and what a watched pool noted then. */
typedef struct freeze_queue_pooled {
    freeze_queue_tag tag;
    uint64_t *word;
    uint64_t mark;
    uint64_t marks;
    uint64_t since;
    uint64_t thread;
    uint32_t slot;
} __attribute__((aligned(128))) freeze_queue_pooled;

/* There are last + 1 words, which is 1 << bits. tags has count places, for tags in the pool and tags that are out; count is 0 if
 * the pool isn't filled. watched_since is 0 if the pool isn't watched. event is -1 if it isn't open, and event_of is the process
 * that opened it. The lock protects waiting, the number of calls that wait; is_ending; and is_armed: the next tag that comes back
 * makes the event readable. The tag of place p has mark p >> bits of word p & last. */
typedef struct freeze_queue_pool_state {
    freeze_queue_pool_word *words;
    freeze_queue_pooled *tags;
    uint32_t count;
    uint32_t last;
    uint32_t bits;
    uint32_t is_ending;
    uint64_t watched_since;
    freeze_queue_waits *waits;
    int64_t event_of;
    int event;
    char apart[128];
    uint32_t waiting;
    bool is_armed;
    pthread_mutex_t lock;
    pthread_cond_t given_back;
} __attribute__((may_alias)) freeze_queue_pool_state;

#if defined(__cplusplus) || __STDC_VERSION__ >= 201112L
static_assert(sizeof(freeze_queue_pool_state) + 128 <= sizeof(freeze_queue_pool), "later versions have 128 bytes");
#endif

static inline freeze_queue_pool_state *freeze_queue_pool_state_of(freeze_queue_pool *of)
{
    return (freeze_queue_pool_state *)(void *)of;
}

/* ---- Internal: marks ---- */

/* Changes the marks of a word if they are still as the call has seen them, and returns whether it did. If not, it writes the
 * present marks to seen. */
static inline bool freeze_queue_pool_marks(uint64_t *word, uint64_t *seen, uint64_t marks)
{
    return __atomic_compare_exchange_n(word, seen, marks, false, __ATOMIC_SEQ_CST, __ATOMIC_SEQ_CST);
}

#ifdef FREEZE_QUEUE_DEBUG
static inline bool freeze_queue_pool_has(const freeze_queue_pool_state *pool, const freeze_queue_tag *tag)
{
    const uintptr_t at = (uintptr_t)tag - (uintptr_t)pool->tags;
    return pool->tags != NULL && at % sizeof *pool->tags == 0 && at / sizeof *pool->tags < pool->count;
}
static inline bool freeze_queue_pool_is_entered(freeze_queue_tag *tag)
{
    freeze_queue_limits limits;
    return freeze_queue_limits_of(tag, &limits) == FREEZE_QUEUE_OK;
}
#endif

/* Notes when a tag was taken, with which hint and by which thread. */
static inline void freeze_queue_pool_notes(freeze_queue_pooled *pooled, uint32_t hint)
{
    __atomic_store_n(&pooled->slot, hint, __ATOMIC_RELAXED);
    __atomic_store_n(&pooled->thread, (uint64_t)(uintptr_t)pthread_self(), __ATOMIC_RELAXED);
    __atomic_store_n(&pooled->since, freeze_queue_nanoseconds(), __ATOMIC_RELAXED);
}

/* Takes a tag that a call has seen in the pool, if its word is still as it was then. */
static inline bool freeze_queue_pool_takes(freeze_queue_pool_state *pool, freeze_queue_pooled *pooled, uint64_t *seen, uint32_t hint)
{
    const uint64_t marks = *seen | pooled->mark;
    if (marks == *seen || !freeze_queue_pool_marks(pooled->word, seen, marks))
        return false;
    __atomic_store_n(&pooled->marks, marks, __ATOMIC_RELAXED);
    if (__builtin_expect(__atomic_load_n(&pool->watched_since, __ATOMIC_RELAXED) != 0, 0))
        freeze_queue_pool_notes(pooled, hint);
    return true;
}

/* Takes a tag of a word, the first in the pool from a mark on; returns NULL if each is out. */
static inline freeze_queue_tag *freeze_queue_pool_takes_of(freeze_queue_pool_state *pool, uint32_t word, uint32_t mark, uint32_t hint)
{
    uint64_t in, seen = __atomic_load_n(&pool->words[word].marks, __ATOMIC_SEQ_CST);
    while ((in = ~(seen | FREEZE_QUEUE_POOL_AWAITED)) != 0) {
        const uint32_t found = (uint32_t)__builtin_ctzll(in >> mark != 0 ? in >> mark << mark : in);
        freeze_queue_pooled *pooled = &pool->tags[found << pool->bits | word];
        if (freeze_queue_pool_takes(pool, pooled, &seen, hint))
            return &pooled->tag;
    }
    return NULL;
}

/* Takes a tag, and looks at the word of place hint first; returns NULL if the call finds every tag out. */
static inline freeze_queue_tag *freeze_queue_pool_searches(freeze_queue_pool_state *pool, uint32_t count, uint32_t hint)
{
    const uint32_t place = hint % count;
    freeze_queue_tag *tag = NULL;
    for (uint32_t looked = 0; tag == NULL && looked <= pool->last; looked++)
        tag = freeze_queue_pool_takes_of(pool, (place + looked) & pool->last, place >> pool->bits, hint);
    return tag;
}

/* ---- Internal: waiting for a tag ---- */

/* Marks a word as awaited if each of its tags is out, and returns whether each is. Call it under the lock. */
static inline bool freeze_queue_pool_awaits(uint64_t *word)
{
    uint64_t seen = __atomic_load_n(word, __ATOMIC_SEQ_CST);
    while (seen == ~FREEZE_QUEUE_POOL_AWAITED)
        if (freeze_queue_pool_marks(word, &seen, ~(uint64_t)0))
            return true;
    return seen == ~(uint64_t)0;
}

/* Takes a tag, or marks each word as awaited and returns NULL. Call it under the lock. The marks stay until a tag comes back
 * while no call waits. */
static inline freeze_queue_tag *freeze_queue_pool_takes_or_awaits(freeze_queue_pool_state *pool, uint32_t hint)
{
    const uint32_t place = hint % pool->count;
    for (uint32_t looked = 0; looked <= pool->last; looked++) {
        const uint32_t word = (place + looked) & pool->last;
        do {
            freeze_queue_tag *tag = freeze_queue_pool_takes_of(pool, word, place >> pool->bits, hint);
            if (tag != NULL)
                return tag;
        } while (!freeze_queue_pool_awaits(&pool->words[word].marks));
    }
    return NULL;
}

/* Takes a tag, or arms the event: the next tag that comes back makes it readable. If the pool ends the event stays readable. */
FREEZE_QUEUE_APART freeze_queue_tag *freeze_queue_pool_takes_or_arms(freeze_queue_pool_state *pool, uint32_t hint)
{
    freeze_queue_locks(&pool->lock);
    freeze_queue_tag *tag = pool->is_ending ? NULL : freeze_queue_pool_takes_or_awaits(pool, hint);
    if (tag == NULL && !pool->is_ending) {
        pool->is_armed = true;
        freeze_queue_raise(pool->event, pool->event_of, false);
    }
    pthread_mutex_unlock(&pool->lock);
    return tag;
}

/* Wakes a call that waits for a tag, or all of them while the pool ends, and makes the event readable if it is armed. Call it
 * under the lock. */
static inline void freeze_queue_pool_shows(freeze_queue_pool_state *pool)
{
    if (pool->is_ending)
        pthread_cond_broadcast(&pool->given_back);
    else
        pthread_cond_signal(&pool->given_back);
    if (pool->is_armed)
        freeze_queue_raise(pool->event, pool->event_of, true);
    pool->is_armed = false;
}

/* Waits for a tag, for a call of freeze_queue_pool_take_waiting that found none at once. */
FREEZE_QUEUE_APART freeze_queue_answer freeze_queue_pool_waits_for_tag(freeze_queue_pool_state *pool, uint32_t hint,
                                                            const struct timespec *deadline, freeze_queue_tag **taken)
{
    const int cancelled = freeze_queue_isnt_cancelled();
    freeze_queue_locks(&pool->lock);
    pool->waiting++;
    bool in_time = true;
    while (!pool->is_ending && (*taken = freeze_queue_pool_takes_or_awaits(pool, hint)) == NULL && in_time)
        in_time = freeze_queue_sleeps_on(&pool->given_back, &pool->lock, deadline);
    const bool is_ending = pool->is_ending;
    if (--pool->waiting == 0 && is_ending)
        pthread_cond_broadcast(&pool->given_back);
    pthread_mutex_unlock(&pool->lock);
    freeze_queue_may_be_cancelled(cancelled);
    if (*taken != NULL)
        return FREEZE_QUEUE_OK;
    return is_ending ? FREEZE_QUEUE_ERR_CLOSED : FREEZE_QUEUE_ERR_TIMED_OUT;
}

/* ---- Taken and given back ---- */

FREEZE_QUEUE_CALL freeze_queue_tag *freeze_queue_pool_take(freeze_queue_pool *of, uint32_t hint)
{
    freeze_queue_pool_state *pool = freeze_queue_pool_state_of(of);
    const uint32_t count = __atomic_load_n(&pool->count, __ATOMIC_RELAXED);
    if (__builtin_expect(hint < count, 1)) {
        freeze_queue_pooled *pooled = &pool->tags[hint];
        uint64_t seen = __atomic_load_n(&pooled->marks, __ATOMIC_RELAXED) & ~pooled->mark; /* most often they are still so */
        if (__builtin_expect(freeze_queue_pool_takes(pool, pooled, &seen, hint), 1))
            return &pooled->tag;
    }
    freeze_queue_tag *tag = count == 0 ? NULL : freeze_queue_pool_searches(pool, count, hint);
    if (tag == NULL && count > 0 && pool->event >= 0)
        tag = freeze_queue_pool_takes_or_arms(pool, hint);
    return tag;
}

FREEZE_QUEUE_CALL freeze_queue_answer freeze_queue_pool_give(freeze_queue_pool *of, freeze_queue_tag *tag)
{
    freeze_queue_pool_state *pool = freeze_queue_pool_state_of(of);
    const freeze_queue_pooled *pooled = (freeze_queue_pooled *)(void *)tag;
    FREEZE_QUEUE_CHECK(freeze_queue_pool_has(pool, tag), "a tag is given to a pool that isn't its own, or isn't filled");
    FREEZE_QUEUE_CHECK(!freeze_queue_pool_is_entered(tag), "a tag is given back to its pool while it is entered");
    const uint64_t mark = pooled->mark;
    uint64_t *word = pooled->word, seen = pooled->marks; /* most often they are still so */
    while ((seen & FREEZE_QUEUE_POOL_AWAITED) == 0 && (seen & mark) != 0)
        if (freeze_queue_pool_marks(word, &seen, seen & ~mark))
            return FREEZE_QUEUE_OK; /* the pool may be gone by now */
    if ((seen & mark) == 0)
        return FREEZE_QUEUE_ERR_TAG_NOT_OUT;
    freeze_queue_locks(&pool->lock);
    const uint64_t kept = pool->waiting > 0 ? FREEZE_QUEUE_POOL_AWAITED : 0;
    bool was_out = (__atomic_fetch_and(word, ~(mark | FREEZE_QUEUE_POOL_AWAITED) | kept, __ATOMIC_SEQ_CST) & mark) != 0;
    freeze_queue_pool_shows(pool);
    pthread_mutex_unlock(&pool->lock);
    return was_out ? FREEZE_QUEUE_OK : FREEZE_QUEUE_ERR_TAG_NOT_OUT;
}

/* ---- Waiting for a tag ---- */

FREEZE_QUEUE_CALL freeze_queue_answer freeze_queue_pool_take_waiting(freeze_queue_pool *of, uint32_t hint,
                                                                     const struct timespec *deadline, freeze_queue_tag **tag)
{
    freeze_queue_pool_state *pool = freeze_queue_pool_state_of(of);
    if (!freeze_queue_is_deadline(deadline))
        return FREEZE_QUEUE_ERR_BAD_DEADLINE;
    freeze_queue_tag *taken = freeze_queue_pool_take(of, hint);
    freeze_queue_answer answer = FREEZE_QUEUE_OK;
    if (taken == NULL && __atomic_load_n(&pool->count, __ATOMIC_RELAXED) == 0)
        answer = FREEZE_QUEUE_ERR_CLOSED;
    else if (taken == NULL)
        answer = freeze_queue_pool_waits_for_tag(pool, hint, deadline, &taken);
    if (answer == FREEZE_QUEUE_OK)
        *tag = taken;
    return answer;
}

#include "pool_control.h"

#endif
