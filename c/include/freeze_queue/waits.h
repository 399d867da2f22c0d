/* How threads enter and leave: bodies of calls of freeze_queue_waits.h, which includes this file. */
#ifndef FREEZE_QUEUE_WAITS_H
#error "include freeze_queue_waits.h"
#endif
#ifndef FREEZE_QUEUE_WAITS_BODIES_H
#define FREEZE_QUEUE_WAITS_BODIES_H

#include "waits_made.h"
#include "bias.h"

/* ---- Internal: under the lock ---- */

/* Ends a freeze, but never the freeze of freeze_queue_waits_mark_dying, and shows the new state. Call it under the lock. */
static inline freeze_queue_answer freeze_queue_waits_thaw_one(freeze_queue_waits_state *waits)
{
    uint32_t depth = 0;
    freeze_queue_answer answer = freeze_queue_depth(waits->queue, &depth);
    if (answer == FREEZE_QUEUE_OK && waits->is_dying && depth == 1)
        return FREEZE_QUEUE_ERR_NOT_FROZEN;
    if (answer == FREEZE_QUEUE_OK)
        answer = freeze_queue_thaw(waits->queue, &depth);
    freeze_queue_waits_show(waits);
    return answer;
}

/* ---- Submitters ---- */

FREEZE_QUEUE_CALL bool freeze_queue_waits_is_dying(freeze_queue_waits *of)
{
    freeze_queue_waits_state *waits = freeze_queue_waits_state_of(of);
    return __atomic_load_n(&waits->is_dying, __ATOMIC_SEQ_CST) != 0;
}

/* If another call has the lock, that call shows the state: no leave waits for a change. */
FREEZE_QUEUE_CALL void freeze_queue_waits_notify(freeze_queue_waits *of)
{
    freeze_queue_waits_state *waits = freeze_queue_waits_state_of(of);
    uint32_t seen = 0;
    while (!freeze_queue_waits_swaps(waits, &seen, seen == 0 ? (uint32_t)FREEZE_QUEUE_TAKEN : seen + FREEZE_QUEUE_OWED)) {}
    if (seen != 0)
        return;
    freeze_queue_waits_show_all(waits);
    freeze_queue_waits_unlock(waits);
}

/* ---- Internal: the slow paths of the quick calls, functions of their own, so that a loop around a call keeps its registers ---- */

/* Whether a tag belongs to the queue of the waits. */
static inline bool freeze_queue_waits_has(freeze_queue_waits *of, freeze_queue_tag *tag)
{
    return freeze_queue_tag_number(tag) == freeze_queue_waits_state_of(of)->number;
}

/* In debug builds, aborts if a tag is open and belongs to another queue. */
static inline void freeze_queue_waits_checks(freeze_queue_waits *of, freeze_queue_tag *tag)
{
    FREEZE_QUEUE_CHECK(freeze_queue_tag_number(tag) == 0 || freeze_queue_waits_has(of, tag), "a tag with the waits of another queue");
    (void)of, (void)tag;
}

/* What freeze_queue_waits_try_enter returns after a try that didn't enter. */
FREEZE_QUEUE_APART freeze_queue_answer freeze_queue_waits_isnt_entered(freeze_queue_waits *of, freeze_queue_tag *tag,
                                                                       freeze_queue_answer answer)
{
    if (!freeze_queue_waits_has(of, tag))
        return FREEZE_QUEUE_ERR_OTHER_QUEUE;
    if (answer == FREEZE_QUEUE_NOT_ENTERED_LAST)
        freeze_queue_waits_notify(of);
    return freeze_queue_waits_is_dying(of) ? FREEZE_QUEUE_ERR_DYING : FREEZE_QUEUE_NOT_ENTERED;
}

/* What freeze_queue_waits_leave returns after the last tag has left. */
FREEZE_QUEUE_APART freeze_queue_answer freeze_queue_waits_was_last(freeze_queue_waits *of, freeze_queue_tag *tag)
{
    if (!freeze_queue_waits_has(of, tag))
        return FREEZE_QUEUE_ERR_OTHER_QUEUE;
    freeze_queue_waits_notify(of);
    return FREEZE_QUEUE_OK;
}

/* Polls while another call has the lock, since its change may be over in a moment. Returns whether the queue is live or dying. */
static inline bool freeze_queue_waits_is_live_soon(freeze_queue_waits_state *waits)
{
    if (FREEZE_QUEUE_LOOK == 0 || __atomic_load_n(&waits->taken, __ATOMIC_RELAXED) == 0)
        return false;
    const struct timespec until = freeze_queue_deadline(2 * FREEZE_QUEUE_LOOK);
    while (!freeze_queue_waits_is_live(waits))
        if (!freeze_queue_waits_goes_on(&until) || __atomic_load_n(&waits->taken, __ATOMIC_RELAXED) == 0)
            return false;
    return true;
}

/* Polls, and then sleeps until the queue is live or dying. Returns false if the deadline passed first. */
static inline bool freeze_queue_waits_for_live(freeze_queue_waits_state *waits, const struct timespec *deadline)
{
    if (freeze_queue_waits_is_live_soon(waits))
        return true;
    bool in_time = true;
    const int cancelled = freeze_queue_isnt_cancelled();
    freeze_queue_locks(&waits->guard);
    __atomic_store_n(&waits->entering, waits->entering + 1, __ATOMIC_SEQ_CST);
    while (!freeze_queue_waits_is_live(waits) && in_time)
        in_time = freeze_queue_sleeps_on(&waits->live, &waits->guard, deadline);
    __atomic_store_n(&waits->entering, waits->entering - 1, __ATOMIC_SEQ_CST);
    pthread_mutex_unlock(&waits->guard);
    freeze_queue_may_be_cancelled(cancelled);
    return in_time;
}

/* Waits for the thaw and tries again, also past a thaw that another freeze followed at once, but not past the deadline. Returns as
 * freeze_queue_waits_enter does. */
FREEZE_QUEUE_APART freeze_queue_answer freeze_queue_waits_enters_later(freeze_queue_waits *of, freeze_queue_tag *tag,
                                                                       uint32_t slot, const struct timespec *deadline)
{
    freeze_queue_waits_state *waits = freeze_queue_waits_state_of(of);
    freeze_queue_answer answer = FREEZE_QUEUE_NOT_ENTERED;
    while (answer == FREEZE_QUEUE_NOT_ENTERED) {
        const bool in_time = freeze_queue_waits_for_live(waits, deadline);
        answer = freeze_queue_waits_try_enter(of, tag, slot);
        if (answer == FREEZE_QUEUE_NOT_ENTERED && (!in_time || (deadline != NULL && !freeze_queue_waits_goes_on(deadline))))
            return FREEZE_QUEUE_ERR_TIMED_OUT;
    }
    return answer;
}

/* ---- Submitters that enter and leave ---- */

FREEZE_QUEUE_CALL freeze_queue_answer freeze_queue_waits_try_enter(freeze_queue_waits *of, freeze_queue_tag *tag,
                                                                   uint32_t slot)
{
    freeze_queue_waits_checks(of, tag);
    freeze_queue_answer answer = freeze_queue_try_enter(tag, slot);
    if (answer != FREEZE_QUEUE_NOT_ENTERED && answer != FREEZE_QUEUE_NOT_ENTERED_LAST)
        return answer;
    return freeze_queue_waits_isnt_entered(of, tag, answer);
}

/* Entering and leaving without the lane: functions of their own, so that entering and leaving by the lane saves no registers. */
__attribute__((noinline, unused)) static freeze_queue_answer
freeze_queue_waits_enters_apart(freeze_queue_waits *of, freeze_queue_tag *tag, uint32_t slot, const struct timespec *deadline)
{
    freeze_queue_answer answer = freeze_queue_waits_try_enter(of, tag, slot);
    return answer == FREEZE_QUEUE_NOT_ENTERED ? freeze_queue_waits_enters_later(of, tag, slot, deadline) : answer;
}
__attribute__((noinline, unused)) static freeze_queue_answer
freeze_queue_waits_leaves_apart(freeze_queue_waits *of, freeze_queue_tag *tag, uint32_t slot)
{
    freeze_queue_waits_state *waits = freeze_queue_waits_state_of(of);
    freeze_queue_answer answer;
    if (__builtin_expect(freeze_queue_is_biased(waits, tag), 1))
        answer = freeze_queue_leave_biased(tag, slot);
    else
        answer = freeze_queue_leaves_and_may_be_biased(waits, tag, slot);
    return answer == FREEZE_QUEUE_LAST ? freeze_queue_waits_was_last(of, tag) : answer;
}

FREEZE_QUEUE_CALL freeze_queue_answer freeze_queue_waits_enter(freeze_queue_waits *of, freeze_queue_tag *tag, uint32_t slot,
                                                               const struct timespec *deadline)
{
    if (__builtin_expect(!freeze_queue_is_deadline(deadline), 0))
        return FREEZE_QUEUE_ERR_BAD_DEADLINE;
    freeze_queue_waits_checks(of, tag);
#ifdef FREEZE_QUEUE_LANE_H
    if (__builtin_expect(freeze_queue_lane_enters(tag, slot), 1))
        return FREEZE_QUEUE_OK;
#endif
    return freeze_queue_waits_enters_apart(of, tag, slot, deadline);
}

FREEZE_QUEUE_CALL freeze_queue_answer freeze_queue_waits_leave(freeze_queue_waits *of, freeze_queue_tag *tag, uint32_t slot)
{
    freeze_queue_waits_checks(of, tag);
#ifdef FREEZE_QUEUE_LANE_H
    if (__builtin_expect(freeze_queue_lane_leaves(tag, slot), 1))
        return FREEZE_QUEUE_OK;
#endif
    return freeze_queue_waits_leaves_apart(of, tag, slot);
}

#include "waits_control.h"
#include "waits_end.h"

#endif
