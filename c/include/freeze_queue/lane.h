/* How a biased tag enters and leaves in place, without a call of the library. A part of freeze_queue.h, which includes it in the
 * library, and if FREEZE_QUEUE_INLINE is defined without FREEZE_QUEUE_DEBUG and -fsanitize=thread. */
#ifndef FREEZE_QUEUE_H
#error "include freeze_queue.h"
#endif
#ifndef FREEZE_QUEUE_LANE_H
#define FREEZE_QUEUE_LANE_H

#include <stddef.h>

/*
 * A biased tag has a lane: a word that only its owner writes, and that a freeze reads. The word is the bias while the tag isn't entered, and
 * the bias plus one while it is. The queue's epoch equals the bias until the next freeze. A freeze changes the epoch, makes the heavy fence
 * (membarrier), and then reads the words. So each store of the owner is either before the fence, and the freeze reads it, or after it, and
 * then the owner's next load finds another epoch.
 *
 * The library lends the lane to C: the first reserved word of the tag's handle points to it, and lent_slots is the queue's number of slots
 * while the lane is lent, otherwise 0. So one comparison of a slot finds a closed handle, a lane that isn't lent and a slot that the queue
 * doesn't have. The library lends none if there is no heavy fence, nor in the proved build, whose steps are sequentially consistent. While
 * the lane is lent, the library regards the tag as entered by it. If the library has to make a call, it first takes the lane back, and reads
 * from the word whether the tag is entered.
 *
 * If an enter finds another epoch, it stores the bias again, and the library tries. If a leave finds another epoch before its store, the
 * library leaves. If it finds one after its store, the word stays at the bias, the lane is no longer lent, and the library leaves. That leave
 * must not make the word busy again: a freeze may have found the lane idle and taken the tag's reference, and a busy lane says that its tag
 * has one.
 */
typedef struct freeze_queue_lane {
    uint64_t word;
    const uint64_t *epoch;
    uint32_t slots;             /* of the queue */
    freeze_queue_limits limits; /* of the lane's last request */
} freeze_queue_lane;

static inline freeze_queue_lane *freeze_queue_lane_of(freeze_queue_tag *tag)
{
    return (freeze_queue_lane *)tag->reserved.words[0];
}

/* Whether the tag of a lane has entered by it. Nobody else stores to the word, so its owner reads it without an atomic load. */
static inline bool freeze_queue_lane_is_busy(const freeze_queue_lane *lane)
{
    return lane->word % 2 != 0;
}

/* Whether the queue hasn't been frozen since the tag was biased. The fence keeps the compiler from moving earlier stores past the load. */
static inline bool freeze_queue_lane_lasts(const uint64_t *epoch, uint64_t bias)
{
    __atomic_signal_fence(__ATOMIC_SEQ_CST);
    return __builtin_expect(__atomic_load_n(epoch, __ATOMIC_ACQUIRE) == bias, 1);
}

/* Enters by the lane. Returns false if the library has to do it. */
static inline bool freeze_queue_lane_enters(freeze_queue_tag *tag, uint32_t slot)
{
    freeze_queue_lane *lane = freeze_queue_lane_of(tag);
    if (__builtin_expect(slot >= tag->lent_slots, 0))
        return false;
    const uint64_t bias = lane->word;
    if (__builtin_expect(bias % 2 != 0, 0))
        return false;
    __atomic_store_n(&lane->word, bias + 1, __ATOMIC_RELAXED);
    if (freeze_queue_lane_lasts(lane->epoch, bias))
        return true;
    __atomic_store_n(&lane->word, bias, __ATOMIC_RELEASE);
    return false;
}

/* Leaves by the lane. Returns false if the library has to do it; the library then regards the tag as entered. The bias is taken from the
 * epoch rather than from the word: so no store waits for the value of the one before. */
static inline bool freeze_queue_lane_leaves(freeze_queue_tag *tag, uint32_t slot)
{
    freeze_queue_lane *lane = freeze_queue_lane_of(tag);
    if (__builtin_expect(slot >= tag->lent_slots, 0))
        return false;
    const uint64_t *epoch = lane->epoch;
    const uint64_t bias = __atomic_load_n(epoch, __ATOMIC_RELAXED);
    if (__builtin_expect(lane->word != bias + 1, 0))
        return false;
    __atomic_store_n(&lane->word, bias, __ATOMIC_RELEASE);
    if (freeze_queue_lane_lasts(epoch, bias))
        return true;
    tag->lent_slots = 0;
    return false;
}

/* Writes the limits of a tag that entered by its lane. Returns false if the library has to do it. A busy lane that was taken back still has
 * the limits of its request. */
static inline bool freeze_queue_lane_limits(freeze_queue_tag *tag, freeze_queue_limits *limits)
{
    const freeze_queue_lane *lane = freeze_queue_lane_of(tag);
    if (__builtin_expect(lane == NULL || !freeze_queue_lane_is_busy(lane), 0))
        return false;
    *limits = lane->limits;
    return true;
}

/* ---- The calls of freeze_queue.h, by the lane if it is lent ---- */

FREEZE_QUEUE_MUST_USE static inline freeze_queue_answer freeze_queue_inline_try_enter(freeze_queue_tag *tag, uint32_t slot)
{
    return freeze_queue_lane_enters(tag, slot) ? FREEZE_QUEUE_OK : freeze_queue_try_enter(tag, slot);
}
FREEZE_QUEUE_MUST_USE static inline freeze_queue_answer freeze_queue_inline_leave(freeze_queue_tag *tag, uint32_t slot)
{
    return freeze_queue_lane_leaves(tag, slot) ? FREEZE_QUEUE_OK : freeze_queue_leave(tag, slot);
}
FREEZE_QUEUE_MUST_USE static inline freeze_queue_answer freeze_queue_inline_leave_biased(freeze_queue_tag *tag, uint32_t slot)
{
    return freeze_queue_lane_leaves(tag, slot) ? FREEZE_QUEUE_OK : freeze_queue_leave_biased(tag, slot);
}
FREEZE_QUEUE_MUST_USE static inline freeze_queue_answer freeze_queue_inline_limits_of(freeze_queue_tag *tag, freeze_queue_limits *limits)
{
    if (freeze_queue_lane_limits(tag, limits))
        return FREEZE_QUEUE_OK;
    /* Into a local struct, so that the compiler can keep the caller's limits in registers. */
    freeze_queue_limits found;
    const freeze_queue_answer answer = freeze_queue_limits_of(tag, &found);
    if (answer == FREEZE_QUEUE_OK)
        *limits = found;
    return answer;
}

#define freeze_queue_try_enter freeze_queue_inline_try_enter
#define freeze_queue_leave freeze_queue_inline_leave
#define freeze_queue_leave_biased freeze_queue_inline_leave_biased
#define freeze_queue_limits_of freeze_queue_inline_limits_of

#endif
