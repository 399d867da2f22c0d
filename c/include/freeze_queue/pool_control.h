/* The list of tags in flight, filling, emptying, and the end: bodies of calls of freeze_queue_pool.h, which includes this file. */
#ifndef FREEZE_QUEUE_POOL_H
#error "include freeze_queue_pool.h"
#endif
#ifndef FREEZE_QUEUE_POOL_CONTROL_H
#define FREEZE_QUEUE_POOL_CONTROL_H

/* ---- Tags in flight ---- */

FREEZE_QUEUE_CALL void freeze_queue_pool_watch(freeze_queue_pool *of, bool watched)
{
    freeze_queue_pool_state *pool = freeze_queue_pool_state_of(of);
    __atomic_store_n(&pool->watched_since, watched ? freeze_queue_nanoseconds() : 0, __ATOMIC_SEQ_CST);
}

FREEZE_QUEUE_CALL uint32_t freeze_queue_pool_in_flight(freeze_queue_pool *of, freeze_queue_taken *list, uint32_t room)
{
    freeze_queue_pool_state *pool = freeze_queue_pool_state_of(of);
    const uint64_t watched = __atomic_load_n(&pool->watched_since, __ATOMIC_SEQ_CST);
    uint32_t out = 0;
    const uint32_t count = __atomic_load_n(&pool->count, __ATOMIC_RELAXED);
    if (count == 0)
        return 0; /* a pool that isn't filled has no lock */
    freeze_queue_locks(&pool->lock); /* under which an end takes tags */
    for (uint32_t place = 0; place < count; place++) {
        freeze_queue_pooled *pooled = &pool->tags[place];
        uint64_t since = __atomic_load_n(&pooled->since, __ATOMIC_RELAXED);
        freeze_queue_taken taken = {place, 0, 0, 0};
        if ((__atomic_load_n(pooled->word, __ATOMIC_SEQ_CST) & pooled->mark) == 0)
            continue;
        if (__atomic_load_n(&pooled->marks, __ATOMIC_RELAXED) == 0)
            continue; /* an end has it */
        if (watched != 0 && since >= watched) {
            taken.slot = __atomic_load_n(&pooled->slot, __ATOMIC_RELAXED);
            taken.thread = __atomic_load_n(&pooled->thread, __ATOMIC_RELAXED);
            taken.since = since;
        }
        if (out < room)
            list[out] = taken;
        out++;
    }
    pthread_mutex_unlock(&pool->lock);
    return out;
}

/* ---- Internal: filled and emptied ---- */

/* Allocates the words and the places of count tags, none of them out; returns false without memory. */
static inline bool freeze_queue_pool_makes(freeze_queue_pool_state *pool, uint32_t count)
{
    void *at = NULL;
    uint32_t bits = 0;
    while (2u << bits <= count && 2u << bits <= FREEZE_QUEUE_POOL_WORDS)
        bits++;
    const uint32_t words = 1u << bits;
    const size_t size = words * sizeof(freeze_queue_pool_word) + count * sizeof(freeze_queue_pooled);
    if (posix_memalign(&at, 128, size) != 0)
        return false;
    pool->words = (freeze_queue_pool_word *)memset(at, 0, size);
    pool->tags = (freeze_queue_pooled *)(void *)(pool->words + words);
    pool->last = words - 1;
    pool->bits = bits;
    for (uint32_t word = 0; word < words; word++)
        pool->words[word].marks = ~FREEZE_QUEUE_POOL_AWAITED;
    for (uint32_t place = 0; place < count; place++) {
        pool->tags[place].word = &pool->words[place & pool->last].marks;
        pool->tags[place].mark = (uint64_t)1 << (place >> bits);
        *pool->tags[place].word &= ~pool->tags[place].mark;
    }
    return true;
}
static inline void freeze_queue_pool_frees(freeze_queue_pool_state *pool)
{
    free(pool->words);
    pool->words = NULL;
    pool->tags = NULL;
}

/* Gives the tags of the places below *taken back to the queue, the last first, until the queue refuses one. A tag that was given
 * back is marked as out, so a pool that keeps the other tags doesn't give it. */
static inline freeze_queue_answer freeze_queue_pool_return(freeze_queue_pool_state *pool, uint32_t *taken)
{
    for (; *taken > 0; --*taken) {
        freeze_queue_pooled *pooled = &pool->tags[*taken - 1];
        freeze_queue_answer answer = freeze_queue_waits_give_tag_back(pool->waits, &pooled->tag);
        if (answer != FREEZE_QUEUE_OK)
            return answer;
        *pooled->word |= pooled->mark;
    }
    return FREEZE_QUEUE_OK;
}

/* Whether a tag is out. Call it under the lock: a call that cleared a mark under the lock has released it by then. */
static inline bool freeze_queue_pool_is_out(freeze_queue_pool_state *pool)
{
    bool is_out = false;
    for (uint32_t place = 0; place < pool->count; place++)
        is_out |= (__atomic_load_n(pool->tags[place].word, __ATOMIC_SEQ_CST) & pool->tags[place].mark) != 0;
    return is_out;
}

/* Destroys what freeze_queue_pool_fill made, except the tags, and closes the event. */
static inline void freeze_queue_pool_goes(freeze_queue_pool_state *pool)
{
#if defined(__linux__)
    if (pool->event >= 0)
        close(pool->event);
#endif
    pool->event = -1;
    pthread_cond_destroy(&pool->given_back);
    pthread_mutex_destroy(&pool->lock);
    freeze_queue_pool_frees(pool);
}

/* ---- Filled and emptied ---- */

FREEZE_QUEUE_CALL freeze_queue_pool *freeze_queue_pool_new(void)
{
    return (freeze_queue_pool *)calloc(1, sizeof(freeze_queue_pool));
}

FREEZE_QUEUE_CALL freeze_queue_answer freeze_queue_pool_fill(freeze_queue_pool *of, freeze_queue_waits *waits, uint32_t count)
{
    freeze_queue_pool_state *pool = freeze_queue_pool_state_of(of);
    freeze_queue_answer answer = FREEZE_QUEUE_OK;
    uint32_t given = 0;
    if (pool->count > 0 || pool->is_ending)
        return FREEZE_QUEUE_ERR_OPEN;
    if (count < 1 || count > FREEZE_QUEUE_MOST_TAGS)
        return FREEZE_QUEUE_ERR_BAD_SIZE;
    if (!freeze_queue_pool_makes(pool, count))
        return FREEZE_QUEUE_ERR_NO_MEMORY;
    pool->waits = waits;
    for (; given < count; given++)
        if ((answer = freeze_queue_waits_next_tag(waits, &pool->tags[given].tag)) != FREEZE_QUEUE_OK)
            break;
    if (answer == FREEZE_QUEUE_OK && !freeze_queue_makes(&pool->lock, &pool->given_back))
        answer = FREEZE_QUEUE_ERR_NO_MEMORY;
    if (answer != FREEZE_QUEUE_OK) {
        freeze_queue_answer returned = freeze_queue_pool_return(pool, &given);
        freeze_queue_pool_frees(pool);
        return returned == FREEZE_QUEUE_OK ? answer : returned;
    }
    pool->waiting = pool->is_ending = 0;
    pool->is_armed = false;
    pool->event = -1;
    pool->count = count;
    return FREEZE_QUEUE_OK;
}

FREEZE_QUEUE_CALL freeze_queue_answer freeze_queue_pool_empty(freeze_queue_pool *of)
{
    freeze_queue_pool_state *pool = freeze_queue_pool_state_of(of);
    if (pool->count == 0)
        return FREEZE_QUEUE_ERR_CLOSED;
    freeze_queue_locks(&pool->lock);
    bool is_out = freeze_queue_pool_is_out(pool);
    pthread_mutex_unlock(&pool->lock);
    if (is_out)
        return FREEZE_QUEUE_ERR_TAGS_OUT;
    freeze_queue_answer answer = freeze_queue_pool_return(pool, &pool->count);
    if (answer != FREEZE_QUEUE_OK)
        return answer;
    freeze_queue_pool_goes(pool);
    return FREEZE_QUEUE_OK;
}

/* ---- Internal: the end ---- */

/* Takes the tag of a place for the end, or marks its word as awaited, and returns whether it took the tag. Call it under the
 * lock. For a tag that the end took, marks is 0, so that it isn't listed. */
static inline bool freeze_queue_pool_takes_place(freeze_queue_pooled *pooled)
{
    const uint64_t mark = pooled->mark;
    uint64_t seen = __atomic_load_n(pooled->word, __ATOMIC_SEQ_CST);
    while ((seen & mark) == 0 || (seen & FREEZE_QUEUE_POOL_AWAITED) == 0) {
        const bool is_in = (seen & mark) == 0;
        if (!freeze_queue_pool_marks(pooled->word, &seen, seen | (is_in ? mark : FREEZE_QUEUE_POOL_AWAITED)))
            continue;
        if (is_in)
            __atomic_store_n(&pooled->marks, 0, __ATOMIC_RELAXED);
        return is_in;
    }
    return false;
}

/* Takes each tag for the end as it comes back, and waits until no call sleeps, or until the deadline. Returns how many tags it
 * took. Call it under the lock. */
static inline uint32_t freeze_queue_pool_takes_all(freeze_queue_pool_state *pool, const struct timespec *deadline)
{
    uint32_t taken = 0;
    for (bool in_time = true; taken < pool->count || pool->waiting > 0;) {
        if (taken < pool->count && freeze_queue_pool_takes_place(&pool->tags[taken]))
            taken++;
        else if (in_time)
            in_time = freeze_queue_sleeps_on(&pool->given_back, &pool->lock, deadline);
        else
            break;
    }
    return taken;
}

/* Puts the tags of the places below taken back into a pool that doesn't end. Call it under the lock. */
static inline void freeze_queue_pool_keeps(freeze_queue_pool_state *pool, uint32_t taken)
{
    for (uint32_t place = 0; place < taken; place++)
        __atomic_fetch_and(pool->tags[place].word, ~pool->tags[place].mark, __ATOMIC_SEQ_CST);
    pool->is_ending = 0;
}

/* ---- The end ---- */

FREEZE_QUEUE_CALL freeze_queue_answer freeze_queue_pool_end(freeze_queue_pool *of, const struct timespec *deadline)
{
    freeze_queue_pool_state *pool = freeze_queue_pool_state_of(of);
    if (!freeze_queue_is_deadline(deadline))
        return FREEZE_QUEUE_ERR_BAD_DEADLINE;
    if (__atomic_load_n(&pool->count, __ATOMIC_RELAXED) == 0)
        return FREEZE_QUEUE_ERR_CLOSED;
    freeze_queue_locks(&pool->lock);
    const bool is_ended_by_another = pool->is_ending;
    pool->is_ending = 1;
    if (is_ended_by_another)
        pthread_mutex_unlock(&pool->lock);
    if (is_ended_by_another)
        return FREEZE_QUEUE_ERR_IN_USE;
    freeze_queue_pool_shows(pool);
    uint32_t taken = freeze_queue_pool_takes_all(pool, deadline);
    const bool in_time = taken == pool->count && pool->waiting == 0;
    if (!in_time)
        freeze_queue_pool_keeps(pool, taken);
    pthread_mutex_unlock(&pool->lock);
    freeze_queue_answer answer = in_time ? FREEZE_QUEUE_OK : FREEZE_QUEUE_ERR_TIMED_OUT;
    for (; in_time && taken > 0; __atomic_store_n(&pool->count, --taken, __ATOMIC_RELAXED))
        if ((answer = freeze_queue_waits_give_tag_back(pool->waits, &pool->tags[taken - 1].tag)) != FREEZE_QUEUE_OK)
            break;
    if (in_time && taken > 0) {
        freeze_queue_locks(&pool->lock);
        freeze_queue_pool_keeps(pool, taken);
        pthread_mutex_unlock(&pool->lock);
    }
    return answer;
}

FREEZE_QUEUE_CALL freeze_queue_answer freeze_queue_pool_destroy(freeze_queue_pool *of)
{
    freeze_queue_pool_state *pool = freeze_queue_pool_state_of(of);
    if (pool->count > 0)
        return FREEZE_QUEUE_ERR_OPEN;
    if (pool->is_ending)
        freeze_queue_pool_goes(pool);
    pool->is_ending = 0;
    return FREEZE_QUEUE_OK;
}

FREEZE_QUEUE_CALL freeze_queue_answer freeze_queue_pool_free(freeze_queue_pool *of)
{
    freeze_queue_answer answer = freeze_queue_pool_destroy(of);
    if (answer == FREEZE_QUEUE_OK)
        free(of);
    return answer;
}

/* ---- The event ---- */

FREEZE_QUEUE_CALL freeze_queue_answer freeze_queue_pool_open_event(freeze_queue_pool *of)
{
    freeze_queue_pool_state *pool = freeze_queue_pool_state_of(of);
    if (pool->count == 0)
        return FREEZE_QUEUE_ERR_CLOSED;
    if (pool->event >= 0)
        return FREEZE_QUEUE_ERR_OPEN;
#if defined(__linux__)
    pool->event = eventfd(1, EFD_NONBLOCK | EFD_CLOEXEC);
    pool->event_of = getpid();
#else
    errno = ENOSYS;
#endif
    return pool->event >= 0 ? FREEZE_QUEUE_OK : FREEZE_QUEUE_ERR_NO_EVENT;
}

FREEZE_QUEUE_CALL int freeze_queue_pool_event(freeze_queue_pool *of)
{
    freeze_queue_pool_state *pool = freeze_queue_pool_state_of(of);
    return pool->count > 0 ? pool->event : -1;
}

#endif
