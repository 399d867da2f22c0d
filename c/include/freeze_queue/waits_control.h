/* Freezes, and changes of the limits: bodies of calls of freeze_queue_waits.h, which includes this file. */
#ifndef FREEZE_QUEUE_WAITS_H
#error "include freeze_queue_waits.h"
#endif
#ifndef FREEZE_QUEUE_WAITS_CONTROL_H
#define FREEZE_QUEUE_WAITS_CONTROL_H

#include <stdio.h>

/* ---- Internal: a freeze and a change, under the lock ---- */

/* Polls for the drain for a moment, and returns whether it saw the drain. */
static inline bool freeze_queue_waits_looks(freeze_queue_waits_state *waits)
{
    if (freeze_queue_waits_sees_drained(waits))
        return true;
    if (FREEZE_QUEUE_LOOK == 0)
        return false;
    const struct timespec until = freeze_queue_deadline(FREEZE_QUEUE_LOOK);
    while (freeze_queue_waits_goes_on(&until))
        if (freeze_queue_waits_sees_drained(waits))
            return true;
    return false;
}

/* Thaws the call's own freeze, and returns an answer, or the refusal of the thaw, or ERR_NOT_FROZEN if another thread has thawed it. Call it under the
 * lock. */
static inline freeze_queue_answer freeze_queue_waits_thaws_own(freeze_queue_waits_state *waits, freeze_queue_waiter *own, freeze_queue_answer answer)
{
    if (own->is_thawed)
        return FREEZE_QUEUE_ERR_NOT_FROZEN;
    freeze_queue_parts(&waits->frozen, own);
    const freeze_queue_answer thawed = freeze_queue_waits_thaw_one(waits);
    return freeze_queue_is_refused(thawed) ? thawed : answer;
}

/* Freezes the queue, and polls and then sleeps until it is drained. Returns as freeze_queue_waits_freeze does; after OK the freeze is in the list. Call it
 * under the lock, which it releases only while it sleeps. A call without a tag must keep the lock from beginning to end: between two
 * locks freeze_queue_waits_end could remove the queue. */
static inline freeze_queue_answer freeze_queue_waits_freeze_one(freeze_queue_waits_state *waits, freeze_queue_waiter *own,
                                                                const struct timespec *deadline)
{
    uint32_t depth;
    const freeze_queue_answer begun = freeze_queue_waits_starts(waits, &depth);
    freeze_queue_waits_show(waits);
    if (freeze_queue_is_refused(begun))
        return begun;
    *own = freeze_queue_new_waiter();
    freeze_queue_joins(&waits->frozen, own);
    const bool is_over = freeze_queue_waits_looks(waits) || freeze_queue_waits_awaits(waits, own, deadline);
    if (own->is_thawed)
        return FREEZE_QUEUE_ERR_NOT_FROZEN;
    if (!is_over && !freeze_queue_waits_sees_drained(waits))
        return freeze_queue_waits_thaws_own(waits, own, FREEZE_QUEUE_ERR_TIMED_OUT);
    __atomic_store_n(&waits->shown, waits->shown | FREEZE_QUEUE_DRAINED_BIT, __ATOMIC_RELEASE); /* the last to leave may not have shown it yet */
    return FREEZE_QUEUE_OK;
}

/* How many freezes there are whose calls have returned. Call it under the lock. */
static inline uint32_t freeze_queue_waits_count_returned(freeze_queue_waits_state *waits)
{
    uint32_t depth = 0;
    (void)freeze_queue_depth(waits->queue, &depth);
    depth -= waits->is_dying && depth > 0;
    for (const freeze_queue_waiter *one = waits->frozen.first; one != NULL && depth > 0; one = one->after)
        depth--;
    return depth;
}

/* Whether the function of an update made this call. Call it under the lock. */
static inline bool freeze_queue_waits_is_in_update(freeze_queue_waits_state *waits)
{
    return waits->is_calling && pthread_equal(waits->caller, pthread_self());
}

/* Takes the turn to change the limits, or waits for it: changes and updates run one at a time, in the order in which they came. Call it
 * under the lock. */
static inline freeze_queue_answer freeze_queue_waits_takes_turn(freeze_queue_waits_state *waits, const struct timespec *deadline)
{
    if (freeze_queue_waits_is_in_update(waits))
        return FREEZE_QUEUE_ERR_IN_UPDATE;
    if (waits->is_changing) {
        freeze_queue_waiter own = freeze_queue_new_waiter();
        freeze_queue_joins(&waits->turns, &own);
        if (freeze_queue_waits_awaits(waits, &own, deadline))
            return FREEZE_QUEUE_OK;
        freeze_queue_parts(&waits->turns, &own);
        return FREEZE_QUEUE_ERR_TIMED_OUT;
    }
    waits->is_changing = true;
    return FREEZE_QUEUE_OK;
}

/* Gives the turn to the call that waited longest, if one waits. Call it under the lock. */
static inline void freeze_queue_waits_ends_turn(freeze_queue_waits_state *waits)
{
    freeze_queue_waiter *const next = waits->turns.first;
    waits->is_changing = next != NULL;
    if (next == NULL)
        return;
    freeze_queue_parts(&waits->turns, next);
    freeze_queue_waits_wakes_one(waits, next);
}

/* Sets the limits of the drained queue, and shows them. Call it under the lock. */
static inline freeze_queue_answer freeze_queue_waits_sets(freeze_queue_waits_state *waits, const freeze_queue_limits *limits)
{
    const freeze_queue_answer answer = freeze_queue_set(waits->queue, limits);
    freeze_queue_waits_show_limits(waits);
    return answer;
}

/* ---- Freezes ---- */

/* A dying queue is frozen, changed and thawed as a live one: only calls that enter return ERR_DYING. */

FREEZE_QUEUE_CALL freeze_queue_answer freeze_queue_waits_begin_freeze(freeze_queue_waits *of)
{
    freeze_queue_waits_state *waits = freeze_queue_waits_state_of(of);
    uint32_t depth;
    freeze_queue_waits_lock(waits);
    freeze_queue_answer answer = freeze_queue_waits_starts(waits, &depth);
    freeze_queue_waits_show(waits);
    freeze_queue_waits_unlock(waits);
    return answer;
}

FREEZE_QUEUE_CALL bool freeze_queue_waits_is_drained(freeze_queue_waits *of)
{
    freeze_queue_waits_state *waits = freeze_queue_waits_state_of(of);
    const bool is_owed = __atomic_load_n(&waits->taken, __ATOMIC_SEQ_CST) >= FREEZE_QUEUE_OWED;
    bool is_drained = (__atomic_load_n(&waits->shown, __ATOMIC_SEQ_CST) & FREEZE_QUEUE_DRAINED_BIT) != 0;
    if (is_drained || !is_owed)
        return is_drained;
    freeze_queue_waits_lock(waits); /* the queue may be drained, and the call that has the lock hasn't shown it yet */
    is_drained = freeze_queue_waits_sees_drained(waits);
    freeze_queue_waits_unlock(waits);
    return is_drained;
}

FREEZE_QUEUE_CALL freeze_queue_answer freeze_queue_waits_freeze(freeze_queue_waits *of, const struct timespec *deadline)
{
    freeze_queue_waits_state *waits = freeze_queue_waits_state_of(of);
    if (!freeze_queue_is_deadline(deadline))
        return FREEZE_QUEUE_ERR_BAD_DEADLINE;
    freeze_queue_waiter own;
    if (!freeze_queue_waits_lock_until(waits, deadline))
        return FREEZE_QUEUE_ERR_TIMED_OUT;
    freeze_queue_answer answer = freeze_queue_waits_freeze_one(waits, &own, deadline);
    if (answer == FREEZE_QUEUE_OK)
        freeze_queue_parts(&waits->frozen, &own);
    freeze_queue_waits_unlock(waits);
    return answer;
}

FREEZE_QUEUE_CALL freeze_queue_answer freeze_queue_waits_set(freeze_queue_waits *of, const freeze_queue_limits *limits)
{
    freeze_queue_waits_state *waits = freeze_queue_waits_state_of(of);
    freeze_queue_waits_lock(waits);
    freeze_queue_answer answer = FREEZE_QUEUE_ERR_IN_UPDATE;
    if (!freeze_queue_waits_is_in_update(waits))
        answer = freeze_queue_waits_sets(waits, limits);
    waits->sets += answer == FREEZE_QUEUE_OK;
    freeze_queue_waits_unlock(waits);
    return answer;
}

FREEZE_QUEUE_CALL freeze_queue_answer freeze_queue_waits_thaw(freeze_queue_waits *of)
{
    freeze_queue_waits_state *waits = freeze_queue_waits_state_of(of);
    freeze_queue_waits_lock(waits);
    freeze_queue_waiter *oldest = freeze_queue_waits_count_returned(waits) == 0 ? waits->frozen.first : NULL;
    freeze_queue_answer answer = freeze_queue_waits_thaw_one(waits);
    if (oldest != NULL && !freeze_queue_is_refused(answer)) {
        oldest->is_thawed = true;
        freeze_queue_parts(&waits->frozen, oldest);
        freeze_queue_waits_wakes_one(waits, oldest);
    }
    freeze_queue_waits_unlock(waits);
    return answer;
}

FREEZE_QUEUE_CALL freeze_queue_answer freeze_queue_waits_mode(freeze_queue_waits *of, uint32_t mode)
{
    freeze_queue_waits_state *waits = freeze_queue_waits_state_of(of);
    freeze_queue_waits_lock(waits);
    freeze_queue_answer answer = freeze_queue_mode(waits->queue, mode);
    freeze_queue_waits_unlock(waits);
    return answer;
}

FREEZE_QUEUE_CALL freeze_queue_answer freeze_queue_waits_depth(freeze_queue_waits *of, uint32_t *depth)
{
    freeze_queue_waits_state *waits = freeze_queue_waits_state_of(of);
    const uint32_t shown = __atomic_load_n(&waits->shown, __ATOMIC_SEQ_CST) / FREEZE_QUEUE_DEPTH;
    if (shown == FREEZE_QUEUE_NO_DEPTH)
        return FREEZE_QUEUE_ERR_CLOSED;
    *depth = shown;
    return FREEZE_QUEUE_OK;
}
FREEZE_QUEUE_CALL freeze_queue_answer freeze_queue_waits_limits(freeze_queue_waits *of, freeze_queue_limits *limits)
{
    freeze_queue_waits_state *waits = freeze_queue_waits_state_of(of);
    if (__atomic_load_n(&waits->shown, __ATOMIC_SEQ_CST) / FREEZE_QUEUE_DEPTH == FREEZE_QUEUE_NO_DEPTH)
        return FREEZE_QUEUE_ERR_CLOSED;
    *limits = freeze_queue_unpacked(__atomic_load_n(&waits->limits, __ATOMIC_ACQUIRE));
    return FREEZE_QUEUE_OK;
}

FREEZE_QUEUE_CALL freeze_queue_answer freeze_queue_waits_change(freeze_queue_waits *of, const freeze_queue_limits *limits,
                                                                const struct timespec *deadline)
{
    freeze_queue_waits_state *waits = freeze_queue_waits_state_of(of);
    freeze_queue_limits now;
    uint32_t piece;
    if (!freeze_queue_is_deadline(deadline))
        return FREEZE_QUEUE_ERR_BAD_DEADLINE;
    freeze_queue_answer answer = freeze_queue_waits_limits(of, &now);
    if (answer == FREEZE_QUEUE_OK)
        answer = freeze_queue_first_piece(limits, 0, 1, &piece);
    if (answer == FREEZE_QUEUE_OK && limits->hardware != now.hardware)
        answer = FREEZE_QUEUE_ERR_OTHER_HARDWARE;
    if (answer == FREEZE_QUEUE_OK && !freeze_queue_waits_lock_until(waits, deadline))
        answer = FREEZE_QUEUE_ERR_TIMED_OUT;
    if (answer != FREEZE_QUEUE_OK)
        return answer;
    answer = freeze_queue_waits_takes_turn(waits, deadline);
    if (answer == FREEZE_QUEUE_OK) {
        freeze_queue_waiter own;
        answer = freeze_queue_waits_freeze_one(waits, &own, deadline);
        if (answer == FREEZE_QUEUE_OK)
            answer = freeze_queue_waits_thaws_own(waits, &own, freeze_queue_waits_sets(waits, limits));
        freeze_queue_waits_ends_turn(waits);
    }
    freeze_queue_waits_unlock(waits);
    return answer;
}

/* ---- Internal: an update ---- */

/* A thread that ends in the function of an update, or an exception that leaves it, would leave the queue frozen. */
static inline void freeze_queue_update_is_left(void *nothing)
{
    (void)nothing;
    fputs("freeze_queue: the function of an update didn't return\n", stderr);
    abort();
}

/* Runs the function: a function of its own, since the cleanup may use setjmp. */
FREEZE_QUEUE_APART freeze_queue_answer freeze_queue_runs(uint32_t (*function)(freeze_queue_limits *limits, void *argument),
                                                         freeze_queue_limits *limits, void *argument)
{
    volatile freeze_queue_answer answer;
    const int cancelled = freeze_queue_isnt_cancelled();
    pthread_cleanup_push(freeze_queue_update_is_left, NULL);
    answer = (freeze_queue_answer)function(limits, argument);
    pthread_cleanup_pop(0);
    freeze_queue_may_be_cancelled(cancelled);
    return answer;
}

/* Releases the lock, calls the function of an update, and takes the lock again. */
static inline freeze_queue_answer freeze_queue_waits_calls(freeze_queue_waits_state *waits,
                                                uint32_t (*function)(freeze_queue_limits *limits, void *argument),
                                                freeze_queue_limits *limits, void *argument)
{
    waits->inside++;
    waits->is_calling = true;
    waits->caller = pthread_self();
    freeze_queue_waits_unlock(waits);
    freeze_queue_answer answer = freeze_queue_runs(function, limits, argument);
    freeze_queue_waits_lock(waits);
    waits->is_calling = false;
    freeze_queue_waits_goes_out(waits);
    return answer == FREEZE_QUEUE_OK || freeze_queue_is_refused(answer) ? answer : FREEZE_QUEUE_ERR_BAD_RETURN;
}

/* Lets the function change a copy of the limits in force, and sets the copy, unless another thread has thawed the freeze. Calls the function again if
 * another thread has set limits meanwhile. Call it under the lock. */
static inline freeze_queue_answer freeze_queue_waits_sets_by(freeze_queue_waits_state *waits, const freeze_queue_waiter *own,
                                                  uint32_t (*function)(freeze_queue_limits *limits, void *argument),
                                                  void *argument, const struct timespec *deadline)
{
    freeze_queue_limits limits;
    for (;;) {
        const uint64_t sets = waits->sets;
        freeze_queue_answer answer = freeze_queue_limits_in_force(waits->queue, &limits);
        if (answer == FREEZE_QUEUE_OK)
            answer = freeze_queue_waits_calls(waits, function, &limits, argument);
        if (answer != FREEZE_QUEUE_OK || own->is_thawed)
            return answer;
        if (sets == waits->sets)
            return freeze_queue_waits_sets(waits, &limits);
        if (deadline != NULL && !freeze_queue_waits_goes_on(deadline))
            return FREEZE_QUEUE_ERR_TIMED_OUT;
    }
}

/* ---- A change of one field ---- */

FREEZE_QUEUE_CALL freeze_queue_answer
freeze_queue_waits_update(freeze_queue_waits *of, uint32_t (*function)(freeze_queue_limits *limits, void *argument),
                          void *argument, const struct timespec *deadline)
{
    freeze_queue_waits_state *waits = freeze_queue_waits_state_of(of);
    if (!freeze_queue_is_deadline(deadline))
        return FREEZE_QUEUE_ERR_BAD_DEADLINE;
    if (!freeze_queue_waits_lock_until(waits, deadline))
        return FREEZE_QUEUE_ERR_TIMED_OUT;
    freeze_queue_answer answer = freeze_queue_waits_takes_turn(waits, deadline);
    if (answer == FREEZE_QUEUE_OK) {
        freeze_queue_waiter own;
        answer = freeze_queue_waits_freeze_one(waits, &own, deadline);
        if (answer == FREEZE_QUEUE_OK)
            answer = freeze_queue_waits_thaws_own(waits, &own, freeze_queue_waits_sets_by(waits, &own, function, argument, deadline));
        freeze_queue_waits_ends_turn(waits);
    }
    freeze_queue_waits_unlock(waits);
    return answer;
}

#endif
