/* Looks without a lock, the lock of the waits, and how calls are woken: a part of freeze_queue_waits.h, which includes this file. */
#ifndef FREEZE_QUEUE_WAITS_H
#error "include freeze_queue_waits.h"
#endif
#ifndef FREEZE_QUEUE_WAITS_LOCK_H
#define FREEZE_QUEUE_WAITS_LOCK_H

/* ---- Internal: lines ---- */

static inline freeze_queue_waiter freeze_queue_new_waiter(void)
{
    freeze_queue_waiter one = {NULL, NULL, false, false};
    return one;
}
static inline void freeze_queue_joins(freeze_queue_line *line, freeze_queue_waiter *one)
{
    one->after = NULL;
    if (line->first == NULL)
        line->first = one;
    else
        line->last->after = one;
    line->last = one;
}
static inline void freeze_queue_parts(freeze_queue_line *line, freeze_queue_waiter *one)
{
    freeze_queue_waiter *before = NULL;
    for (freeze_queue_waiter *at = line->first; at != one; at = at->after)
        before = at;
    if (before == NULL)
        line->first = one->after;
    else
        before->after = one->after;
    if (line->last == one)
        line->last = before;
}

/* ---- Internal: sleeping and waking ---- */

static inline bool freeze_queue_is_woken(freeze_queue_waiter *one) { return __atomic_load_n(&one->is_woken, __ATOMIC_ACQUIRE); }

/* Wakes a call, which may be gone then if it doesn't sleep. Call it under the guard. */
static inline void freeze_queue_waits_wakes(freeze_queue_waits_state *waits, freeze_queue_waiter *one)
{
    pthread_cond_t *const on = one->on;
    __atomic_store_n(&one->is_woken, true, __ATOMIC_RELEASE);
    if (on == &waits->live)
        pthread_cond_broadcast(on);
    else if (on != NULL)
        pthread_cond_signal(on);
}

/* The same without the guard, for a call that needs the lock to go on. Call it under the lock. */
static inline void freeze_queue_waits_wakes_one(freeze_queue_waits_state *waits, freeze_queue_waiter *one)
{
    freeze_queue_locks(&waits->guard);
    freeze_queue_waits_wakes(waits, one);
    pthread_mutex_unlock(&waits->guard);
}

/* Sleeps until the call is woken. Returns false if the deadline passed first. */
static inline bool freeze_queue_waits_sleeps(freeze_queue_waits_state *waits, freeze_queue_waiter *own, const struct timespec *deadline)
{
    pthread_cond_t condition;
    const int cancelled = freeze_queue_isnt_cancelled();
    const bool is_made = freeze_queue_new_condition(&condition) == 0;
    bool is_woken, in_time = true;
    freeze_queue_locks(&waits->guard);
    own->on = is_made ? &condition : &waits->live;
    while (!(is_woken = freeze_queue_is_woken(own)) && in_time)
        in_time = freeze_queue_sleeps_on(own->on, &waits->guard, deadline);
    own->on = NULL;
    pthread_mutex_unlock(&waits->guard);
    if (is_made)
        pthread_cond_destroy(&condition);
    freeze_queue_may_be_cancelled(cancelled);
    return is_woken;
}

/* ---- Internal: looks ---- */

/* The bits of the word shown, beside FREEZE_QUEUE_DEPTH times the depth: the queue is drained, and a freeze begins. */
enum { FREEZE_QUEUE_DRAINED_BIT = 1, FREEZE_QUEUE_FREEZES = 2, FREEZE_QUEUE_DEPTH = 4 };
enum { FREEZE_QUEUE_NO_DEPTH = FREEZE_QUEUE_MOST_DEPTH + 1 }; /* of a queue that is closed */

/* Whether another try to enter is worthwhile, because the queue is live or dying. */
static inline bool freeze_queue_waits_is_live(freeze_queue_waits_state *waits)
{
    return __atomic_load_n(&waits->shown, __ATOMIC_SEQ_CST) == 0 || __atomic_load_n(&waits->is_dying, __ATOMIC_SEQ_CST);
}

/* Limits in one word: each is below 2^16. */
static inline uint64_t freeze_queue_packed(const freeze_queue_limits *limits)
{
    return (uint64_t)limits->hardware << 48 | (uint64_t)limits->max << 32 | (uint64_t)limits->chunk << 16 | limits->physical;
}
static inline freeze_queue_limits freeze_queue_unpacked(uint64_t word)
{
    const freeze_queue_limits limits = {(uint32_t)(word >> 48), (uint32_t)(word >> 32 & 0xFFFF), (uint32_t)(word >> 16 & 0xFFFF),
                                        (uint32_t)(word & 0xFFFF)};
    return limits;
}

/* ---- Internal: showing, under the lock ---- */

static inline bool freeze_queue_waits_sees_drained(freeze_queue_waits_state *waits) { return freeze_queue_poll_drained(waits->queue); }

/* Makes an event readable, or not. A process that was forked after the event was opened leaves its parent's event alone. */
static inline void freeze_queue_raise(int event, int64_t opened_by, bool readable)
{
#if defined(__linux__)
    uint64_t count;
    if (event < 0 || opened_by != getpid())
        return;
    if (readable)
        (void)eventfd_write(event, 1);
    else
        (void)eventfd_read(event, &count);
#else
    (void)event, (void)opened_by, (void)readable;
#endif
}

/* What the events tell. Call it before the lock is given up: a change that needn't wait sets no event. */
enum { FREEZE_QUEUE_TELLS_LIVE = 1, FREEZE_QUEUE_TELLS_DRAINED = 2 };
FREEZE_QUEUE_APART void freeze_queue_waits_raises(freeze_queue_waits_state *waits)
{
    const uint8_t changed = waits->raised ^ waits->wanted;
    waits->raised = waits->wanted;
    if (changed & FREEZE_QUEUE_TELLS_LIVE)
        freeze_queue_raise(waits->live_event, waits->events_of, (waits->wanted & FREEZE_QUEUE_TELLS_LIVE) != 0);
    if (changed & FREEZE_QUEUE_TELLS_DRAINED)
        freeze_queue_raise(waits->drained_event, waits->events_of, (waits->wanted & FREEZE_QUEUE_TELLS_DRAINED) != 0);
}

/* Wakes the calls that wait for a live queue, and for a drained one. */
FREEZE_QUEUE_APART void freeze_queue_waits_wakes_all(freeze_queue_waits_state *waits, bool is_live, bool is_drained)
{
    freeze_queue_locks(&waits->guard);
    if (is_live)
        pthread_cond_broadcast(&waits->live);
    for (freeze_queue_waiter *one = is_drained ? waits->frozen.first : NULL; one != NULL; one = one->after)
        freeze_queue_waits_wakes(waits, one);
    pthread_mutex_unlock(&waits->guard);
}

/* Shows whether the queue is live and drained, to looks and to the calls that wait, and notes what the events are to tell. Call it after each
 * change. */
static inline void freeze_queue_waits_show(freeze_queue_waits_state *waits)
{
    uint32_t depth = FREEZE_QUEUE_NO_DEPTH;
    (void)freeze_queue_depth(waits->queue, &depth);
    const bool is_drained = freeze_queue_waits_sees_drained(waits);
    __atomic_store_n(&waits->shown, FREEZE_QUEUE_DEPTH * depth | (is_drained ? FREEZE_QUEUE_DRAINED_BIT : 0), __ATOMIC_SEQ_CST);
    const bool is_live = freeze_queue_waits_is_live(waits);
    if ((is_live && __atomic_load_n(&waits->entering, __ATOMIC_SEQ_CST) > 0) || (is_drained && waits->frozen.first != NULL))
        freeze_queue_waits_wakes_all(waits, is_live, is_drained);
    if (waits->live_event >= 0)
        waits->wanted = (uint8_t)((is_live ? FREEZE_QUEUE_TELLS_LIVE : 0) | (is_drained ? FREEZE_QUEUE_TELLS_DRAINED : 0));
}

/* Shows the limits in force. */
static inline void freeze_queue_waits_show_limits(freeze_queue_waits_state *waits)
{
    freeze_queue_limits limits;
    if (freeze_queue_limits_in_force(waits->queue, &limits) == FREEZE_QUEUE_OK)
        __atomic_store_n(&waits->limits, freeze_queue_packed(&limits), __ATOMIC_RELEASE);
}
static inline void freeze_queue_waits_show_all(freeze_queue_waits_state *waits)
{
    freeze_queue_waits_show_limits(waits);
    freeze_queue_waits_show(waits);
}

/* ---- Internal: the lock ---- */

/* The bits of the word taken: a call has the lock, and others may wait for it. The rest counts the calls that had the state changed while
 * another call had the lock: that call shows the state before it gives up the lock, so that they needn't wait. */
enum { FREEZE_QUEUE_TAKEN = 1, FREEZE_QUEUE_IN_LINE = 2, FREEZE_QUEUE_OWED = 4 };

static inline bool freeze_queue_waits_swaps(freeze_queue_waits_state *waits, uint32_t *seen, uint32_t word)
{
    return __atomic_compare_exchange_n(&waits->taken, seen, word, false, __ATOMIC_SEQ_CST, __ATOMIC_SEQ_CST);
}

/* Takes the lock, or stands in its line. Returns false if the deadline passed first. */
FREEZE_QUEUE_APART bool freeze_queue_waits_lock_in_line(freeze_queue_waits_state *waits, const struct timespec *deadline)
{
    freeze_queue_waiter own = freeze_queue_new_waiter();
    uint32_t seen = FREEZE_QUEUE_TAKEN;
    freeze_queue_locks(&waits->guard);
    while (!freeze_queue_waits_swaps(waits, &seen, seen == 0 ? (uint32_t)FREEZE_QUEUE_TAKEN : seen | FREEZE_QUEUE_IN_LINE)) {}
    const bool was_free = seen == 0;
    if (!was_free)
        freeze_queue_joins(&waits->line, &own);
    pthread_mutex_unlock(&waits->guard);
    if (was_free)
        return true;
    const struct timespec until = freeze_queue_deadline(2 * FREEZE_QUEUE_LOOK);
    while (FREEZE_QUEUE_LOOK > 0 && freeze_queue_waits_goes_on(&until))
        if (freeze_queue_is_woken(&own))
            return true;
    if (freeze_queue_waits_sleeps(waits, &own, deadline))
        return true;
    freeze_queue_locks(&waits->guard);
    const bool is_woken = freeze_queue_is_woken(&own);
    if (!is_woken)
        freeze_queue_parts(&waits->line, &own);
    pthread_mutex_unlock(&waits->guard);
    return is_woken;
}
static inline bool freeze_queue_waits_lock_until(freeze_queue_waits_state *waits, const struct timespec *deadline)
{
    uint32_t free_word = 0;
    return freeze_queue_waits_swaps(waits, &free_word, FREEZE_QUEUE_TAKEN) || freeze_queue_waits_lock_in_line(waits, deadline);
}
static inline void freeze_queue_waits_lock(freeze_queue_waits_state *waits) { (void)freeze_queue_waits_lock_until(waits, NULL); }

/* Gives the lock to the first call of its line, or gives it up, unless a call is owed a show. Call it under the guard. */
static inline bool freeze_queue_waits_passes_on(freeze_queue_waits_state *waits)
{
    freeze_queue_waiter *const next = waits->line.first;
    const uint32_t others = next == NULL || next->after == NULL ? 0u : (uint32_t)FREEZE_QUEUE_IN_LINE;
    const uint32_t word = next == NULL ? 0u : FREEZE_QUEUE_TAKEN | others;
    uint32_t seen = FREEZE_QUEUE_TAKEN;
    while (!freeze_queue_waits_swaps(waits, &seen, word))
        if (seen >= FREEZE_QUEUE_OWED)
            return false;
    if (next != NULL) {
        freeze_queue_parts(&waits->line, next);
        freeze_queue_waits_wakes(waits, next);
    }
    return true;
}
FREEZE_QUEUE_APART void freeze_queue_waits_unlock_later(freeze_queue_waits_state *waits)
{
    for (bool is_passed_on = false; !is_passed_on;) {
        const uint32_t owed = __atomic_load_n(&waits->taken, __ATOMIC_SEQ_CST) / FREEZE_QUEUE_OWED * FREEZE_QUEUE_OWED;
        if (owed > 0) {
            freeze_queue_waits_show_all(waits);
            __atomic_fetch_sub(&waits->taken, owed, __ATOMIC_SEQ_CST);
            freeze_queue_waits_raises(waits);
        }
        freeze_queue_locks(&waits->guard);
        is_passed_on = freeze_queue_waits_passes_on(waits);
        pthread_mutex_unlock(&waits->guard);
    }
}
static inline void freeze_queue_waits_unlock(freeze_queue_waits_state *waits)
{
    uint32_t seen = FREEZE_QUEUE_TAKEN;
    if (waits->raised != waits->wanted)
        freeze_queue_waits_raises(waits);
    if (!freeze_queue_waits_swaps(waits, &seen, 0))
        freeze_queue_waits_unlock_later(waits);
}

/* ---- Internal: waiting, for a call that has the lock ---- */

/* Wakes the call that waits for the end, if there is one. */
static inline void freeze_queue_waits_wakes_ender(freeze_queue_waits_state *waits)
{
    if (waits->ender != NULL)
        freeze_queue_waits_wakes_one(waits, waits->ender);
}

/* Ends a call that was counted in inside. */
static inline void freeze_queue_waits_goes_out(freeze_queue_waits_state *waits)
{
    if (--waits->inside == 0)
        freeze_queue_waits_wakes_ender(waits);
}

/* Sleeps without the lock until another call wakes this one, and returns whether one did by the deadline. Meanwhile it is counted in
 * inside, so that freeze_queue_waits_end waits for it. */
static inline bool freeze_queue_waits_awaits(freeze_queue_waits_state *waits, freeze_queue_waiter *own, const struct timespec *deadline)
{
    waits->inside++;
    freeze_queue_waits_unlock(waits);
    (void)freeze_queue_waits_sleeps(waits, own, deadline);
    freeze_queue_waits_lock(waits);
    freeze_queue_waits_goes_out(waits);
    return freeze_queue_is_woken(own);
}

#endif
