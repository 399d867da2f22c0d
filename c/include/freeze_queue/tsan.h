/* The calls for the thread sanitizer. A part of freeze_queue.h, which includes it in code that is compiled for that. */
#ifndef FREEZE_QUEUE_H
#error "include freeze_queue.h"
#endif
#ifndef FREEZE_QUEUE_TSAN_H
#define FREEZE_QUEUE_TSAN_H

void __tsan_acquire(void *at);
void __tsan_release(void *at);

/* One address for each queue, in all files. Queues whose numbers are 256 apart share one. */
__attribute__((weak)) uint64_t freeze_queue_orders[256];
static inline void *freeze_queue_order_of_tag(freeze_queue_tag *tag)
{
    return &freeze_queue_orders[freeze_queue_tag_number(tag) % 256];
}
static inline void *freeze_queue_order_of_queue(freeze_queue *queue)
{
    return &freeze_queue_orders[freeze_queue_number(queue) % 256];
}
static inline freeze_queue_answer freeze_queue_acquires(bool sees, void *order, freeze_queue_answer answer)
{
    if (sees)
        __tsan_acquire(order);
    return answer;
}

/* The library orders its own accesses by atomic steps, which the sanitizer doesn't see, and the proved build makes some of them by memcpy,
 * which it sees: so it ignores what happens within a call. */
void __tsan_ignore_thread_begin(void);
void __tsan_ignore_thread_end(void);
#define FREEZE_QUEUE_UNSEEN(result, call, parameters, arguments)        \
    static inline result freeze_queue_unseen_##call parameters          \
    {                                                                   \
        __tsan_ignore_thread_begin();                                   \
        result found = freeze_queue_##call arguments;                   \
        __tsan_ignore_thread_end();                                     \
        return found;                                                   \
    }
FREEZE_QUEUE_UNSEEN(freeze_queue_answer, try_enter, (freeze_queue_tag *tag, uint32_t slot), (tag, slot))
FREEZE_QUEUE_UNSEEN(freeze_queue_answer, try_enter_frozen, (freeze_queue_tag *tag, uint32_t slot), (tag, slot))
FREEZE_QUEUE_UNSEEN(freeze_queue_answer, leave, (freeze_queue_tag *tag, uint32_t slot), (tag, slot))
FREEZE_QUEUE_UNSEEN(freeze_queue_answer, leave_biased, (freeze_queue_tag *tag, uint32_t slot), (tag, slot))
FREEZE_QUEUE_UNSEEN(freeze_queue_answer, give_tag_back, (freeze_queue *queue, freeze_queue_tag *tag), (queue, tag))
FREEZE_QUEUE_UNSEEN(freeze_queue_answer, start_freeze, (freeze_queue *queue, uint32_t *depth), (queue, depth))
FREEZE_QUEUE_UNSEEN(bool, poll_drained, (freeze_queue *queue), (queue))
FREEZE_QUEUE_UNSEEN(freeze_queue_answer, set, (freeze_queue *queue, const freeze_queue_limits *limits), (queue, limits))
FREEZE_QUEUE_UNSEEN(freeze_queue_answer, thaw, (freeze_queue *queue, uint32_t *depth), (queue, depth))
#undef FREEZE_QUEUE_UNSEEN
#define freeze_queue_try_enter freeze_queue_unseen_try_enter
#define freeze_queue_try_enter_frozen freeze_queue_unseen_try_enter_frozen
#define freeze_queue_leave freeze_queue_unseen_leave
#define freeze_queue_leave_biased freeze_queue_unseen_leave_biased
#define freeze_queue_give_tag_back freeze_queue_unseen_give_tag_back
#define freeze_queue_start_freeze freeze_queue_unseen_start_freeze
#define freeze_queue_poll_drained freeze_queue_unseen_poll_drained
#define freeze_queue_set freeze_queue_unseen_set
#define freeze_queue_thaw freeze_queue_unseen_thaw

FREEZE_QUEUE_MUST_USE static inline freeze_queue_answer freeze_queue_ordered_try_enter(freeze_queue_tag *tag, uint32_t slot)
{
    void *order = freeze_queue_order_of_tag(tag);
    freeze_queue_answer answer = freeze_queue_try_enter(tag, slot);
    return freeze_queue_acquires(answer == FREEZE_QUEUE_OK || answer == FREEZE_QUEUE_NOT_ENTERED_LAST, order, answer);
}
FREEZE_QUEUE_MUST_USE static inline freeze_queue_answer freeze_queue_ordered_try_enter_frozen(freeze_queue_tag *tag, uint32_t slot)
{
    void *order = freeze_queue_order_of_tag(tag);
    freeze_queue_answer answer = freeze_queue_try_enter_frozen(tag, slot);
    return freeze_queue_acquires(answer == FREEZE_QUEUE_OK || answer == FREEZE_QUEUE_NOT_ENTERED_LAST, order, answer);
}
FREEZE_QUEUE_MUST_USE static inline freeze_queue_answer freeze_queue_ordered_leave(freeze_queue_tag *tag, uint32_t slot)
{
    void *order = freeze_queue_order_of_tag(tag);
    __tsan_release(order);
    freeze_queue_answer answer = freeze_queue_leave(tag, slot);
    return freeze_queue_acquires(answer == FREEZE_QUEUE_LAST, order, answer);
}
FREEZE_QUEUE_MUST_USE static inline freeze_queue_answer freeze_queue_ordered_leave_biased(freeze_queue_tag *tag, uint32_t slot)
{
    void *order = freeze_queue_order_of_tag(tag);
    __tsan_release(order);
    freeze_queue_answer put = freeze_queue_leave_biased(tag, slot);
    return freeze_queue_acquires(put == FREEZE_QUEUE_LAST, order, put);
}
FREEZE_QUEUE_MUST_USE static inline freeze_queue_answer freeze_queue_ordered_start_freeze(freeze_queue *queue,
                                                                            uint32_t *depth)
{
    void *order = freeze_queue_order_of_queue(queue);
    __tsan_release(order);
    freeze_queue_answer answer = freeze_queue_start_freeze(queue, depth);
    return freeze_queue_acquires(answer == FREEZE_QUEUE_DRAINED, order, answer);
}
static inline bool freeze_queue_ordered_poll_drained(freeze_queue *queue)
{
    void *order = freeze_queue_order_of_queue(queue);
    bool yes = freeze_queue_poll_drained(queue);
    (void)freeze_queue_acquires(yes, order, FREEZE_QUEUE_OK);
    return yes;
}
FREEZE_QUEUE_MUST_USE static inline freeze_queue_answer freeze_queue_ordered_set(freeze_queue *queue,
                                                                   const freeze_queue_limits *limits)
{
    void *order = freeze_queue_order_of_queue(queue);
    freeze_queue_answer answer = freeze_queue_set(queue, limits);
    return freeze_queue_acquires(answer == FREEZE_QUEUE_OK, order, answer);
}
FREEZE_QUEUE_MUST_USE static inline freeze_queue_answer freeze_queue_ordered_thaw(freeze_queue *queue, uint32_t *depth)
{
    __tsan_release(freeze_queue_order_of_queue(queue));
    return freeze_queue_thaw(queue, depth);
}

#undef freeze_queue_try_enter
#undef freeze_queue_try_enter_frozen
#undef freeze_queue_leave
#undef freeze_queue_leave_biased
#undef freeze_queue_start_freeze
#undef freeze_queue_poll_drained
#undef freeze_queue_set
#undef freeze_queue_thaw
#define freeze_queue_try_enter freeze_queue_ordered_try_enter
#define freeze_queue_try_enter_frozen freeze_queue_ordered_try_enter_frozen
#define freeze_queue_leave freeze_queue_ordered_leave
#define freeze_queue_leave_biased freeze_queue_ordered_leave_biased
#define freeze_queue_start_freeze freeze_queue_ordered_start_freeze
#define freeze_queue_poll_drained freeze_queue_ordered_poll_drained
#define freeze_queue_set freeze_queue_ordered_set
#define freeze_queue_thaw freeze_queue_ordered_thaw

#endif
