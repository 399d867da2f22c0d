/* Which tags are biased, and for how long no tag is biased after a change: a part of freeze_queue_waits.h, which includes this
 * file. */
#ifndef FREEZE_QUEUE_WAITS_H
#error "include freeze_queue_waits.h"
#endif
#ifndef FREEZE_QUEUE_BIAS_H
#define FREEZE_QUEUE_BIAS_H

#include "waits_made.h"

/* A bias saves time in each request, and taking biases away costs time in each change. So after a change there is a pause, in which
 * no tag is biased, for as long as the change took to take the biases away. If the next change comes before the biases have lived
 * for FREEZE_QUEUE_WORTH times the pause, the next pause is twice as long, up to FREEZE_QUEUE_MOST_PAUSE times what taking the biases
 * took. A tag that isn't biased reads the clock once in FREEZE_QUEUE_BETWEEN_LOOKS requests or so. */
enum { FREEZE_QUEUE_WORTH = 16, FREEZE_QUEUE_MOST_PAUSE = 1024, FREEZE_QUEUE_BETWEEN_LOOKS = 32 };

/* ---- Internal: a tag's bias ---- */

/* The second reserved word of a tag's handle is odd once the tag was biased: twice the value of freezes then, plus one. Before, and
 * during a pause, it is twice the number of requests until the tag reads the clock again. The first reserved word is lane.h's. */
static inline uintptr_t freeze_queue_biased_at(uint64_t freezes) { return (uintptr_t)freezes * 2 + 1; }

/* Whether a tag was biased after the last freeze began. */
static inline bool freeze_queue_is_biased(freeze_queue_waits_state *waits, freeze_queue_tag *tag)
{
    return (uintptr_t)tag->reserved.words[1] == freeze_queue_biased_at(__atomic_load_n(&waits->freezes, __ATOMIC_RELAXED));
}

/* The nanoseconds of CLOCK_MONOTONIC, 1 or more. */
static inline uint64_t freeze_queue_nanoseconds(void)
{
    const struct timespec now = freeze_queue_deadline(0);
    return (uint64_t)now.tv_sec * 1000000000 + (uint64_t)now.tv_nsec + 1;
}

/* Whether a tag that leaves may be biased now. */
static inline bool freeze_queue_may_be_biased(freeze_queue_waits_state *waits, freeze_queue_tag *tag)
{
    uint64_t until = __atomic_load_n(&waits->unbiased_until, __ATOMIC_RELAXED);
    if (until == 0)
        return true;
    const uintptr_t word = (uintptr_t)tag->reserved.words[1], looks = word % 2 == 0 ? word / 2 : 0;
    tag->reserved.words[1] = (void *)(2 * (looks > 0 ? looks - 1 : (uintptr_t)FREEZE_QUEUE_BETWEEN_LOOKS));
    if (looks > 0 || freeze_queue_nanoseconds() < until)
        return false;
    __atomic_compare_exchange_n(&waits->unbiased_until, &until, 0, false, __ATOMIC_RELAXED, __ATOMIC_RELAXED);
    return true;
}

/* Leaves with a tag that isn't biased, and biases it if it may be biased and the queue is live. */
FREEZE_QUEUE_APART freeze_queue_answer freeze_queue_leaves_and_may_be_biased(freeze_queue_waits_state *waits, freeze_queue_tag *tag,
                                                                            uint32_t slot)
{
    const uint64_t freezes = __atomic_load_n(&waits->freezes, __ATOMIC_RELAXED);
    if (!freeze_queue_may_be_biased(waits, tag))
        return freeze_queue_leave(tag, slot);
    __atomic_store_n(&waits->has_biased, 1, __ATOMIC_RELAXED);
    const freeze_queue_answer answer = freeze_queue_leave_biased(tag, slot);
    if (!freeze_queue_is_refused(answer))
        tag->reserved.words[1] = (void *)freeze_queue_biased_at(freezes);
    return answer;
}

/* ---- Internal: a freeze takes the biases, under the lock ---- */

/* Begins a pause. Taking the biases lasted from `from` to `to`. */
static inline void freeze_queue_waits_pauses(freeze_queue_waits_state *waits, uint64_t from, uint64_t to)
{
    const uint64_t lived = from > waits->pause_end ? from - waits->pause_end : 0;
    const uint64_t twice = waits->pause_times < FREEZE_QUEUE_MOST_PAUSE / 2 ? 2 * waits->pause_times : (uint64_t)FREEZE_QUEUE_MOST_PAUSE;
    waits->pause_times = lived / FREEZE_QUEUE_WORTH >= waits->pause_length ? 1 : twice;
    waits->pause_length = (to > from ? to - from : 1) * waits->pause_times;
    waits->pause_end = to + waits->pause_length;
    __atomic_store_n(&waits->unbiased_until, waits->pause_end, __ATOMIC_RELAXED);
}

/* Begins a freeze, as freeze_queue_start_freeze does. No tag that leaves meanwhile is biased. A call that isn't entered since the freeze
 * begins finds that shown, so that it sleeps. */
static inline freeze_queue_answer freeze_queue_waits_starts(freeze_queue_waits_state *waits, uint32_t *depth)
{
    __atomic_store_n(&waits->shown, waits->shown | FREEZE_QUEUE_FREEZES, __ATOMIC_RELEASE);
    if (!__atomic_load_n(&waits->has_biased, __ATOMIC_RELAXED))
        return freeze_queue_start_freeze(waits->queue, depth);
    const uint64_t from = freeze_queue_nanoseconds();
    __atomic_store_n(&waits->has_biased, 0, __ATOMIC_RELAXED);
    __atomic_store_n(&waits->unbiased_until, UINT64_MAX, __ATOMIC_RELAXED);
    __atomic_store_n(&waits->freezes, waits->freezes + 1, __ATOMIC_RELAXED);
    const freeze_queue_answer answer = freeze_queue_start_freeze(waits->queue, depth);
    freeze_queue_waits_pauses(waits, from, freeze_queue_nanoseconds());
    return answer;
}

#endif
