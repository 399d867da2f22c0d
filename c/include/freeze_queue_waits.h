/*
 * Waiting at a queue, for pthreads: requests that wait for the thaw, changes that wait for the drain, and the end of a queue.
 *
 * A freeze_queue_waits is made for a queue (waits_init), and shared by all threads. From then on use this header: a call of
 * freeze_queue.h that takes the queue is allowed only while no other thread is in a call of the waits or of a pool. Requests
 * enter and leave with their tags. A change of the limits (waits_change, waits_update) freezes the queue, waits for the drain,
 * sets the limits and thaws. To end a queue, mark it dying, let each thread give its tag back, and call waits_end.
 *
 * A refused call changed nothing, with three exceptions: a leave with ERR_OTHER_QUEUE has left; a freeze, a change or an
 * update may have frozen the queue and thawed it; and waits_end may leave the queue dying.
 *
 * A deadline is a time of CLOCK_MONOTONIC, which freeze_queue_deadline makes, or NULL for none. If its nanoseconds aren't
 * from 0 to 999,999,999, the call returns ERR_BAD_DEADLINE before it does anything. See freeze_queue_waits(3).
 */
#ifndef FREEZE_QUEUE_WAITS_H
#define FREEZE_QUEUE_WAITS_H

#include "freeze_queue.h"
#include <time.h>

#if !defined(CLOCK_MONOTONIC) || (defined(__GLIBC__) && _POSIX_C_SOURCE < 200112L)
#error "freeze_queue_waits.h needs -D_POSIX_C_SOURCE=200809L or -std=gnu11"
#endif

#ifdef __cplusplus
extern "C" {
#endif

/* The size leaves room for later versions. */
typedef struct freeze_queue_waits {
    void *opaque[62] FREEZE_QUEUE_ZEROED;
    freeze_queue_reserve reserved;
} freeze_queue_waits;

#if defined(__cplusplus) || __STDC_VERSION__ >= 201112L
static_assert(sizeof(freeze_queue_waits) == 64 * sizeof(void *), "as the library has it");
#endif

/* ---- Deadlines ---- */

/* Returns the time `nanoseconds` from now. UINT64_MAX is about 584 years. */
FREEZE_QUEUE_CALL struct timespec freeze_queue_deadline(uint64_t nanoseconds);

/* ---- Made and destroyed ---- */

/* Initializes a freeze_queue_waits for a queue, without events: OK. Both stay at their addresses until it is destroyed or has
 * ended. Its memory may have any content; zero it only if destroy, end or free may be called on it without a successful init.
 * ERR_CLOSED, ERR_IN_USE if the queue has waits, ERR_NO_MEMORY if the system refuses a mutex or a condition variable. */
FREEZE_QUEUE_MUST_USE FREEZE_QUEUE_CALL freeze_queue_answer freeze_queue_waits_init(freeze_queue_waits *waits,
                                                                                    freeze_queue *queue);

/* Destroys a freeze_queue_waits, and closes its events. The queue stays as it is. ERR_CLOSED if it is destroyed already or has
 * ended, ERR_IN_USE while a call sleeps or runs a function. */
FREEZE_QUEUE_CALL freeze_queue_answer freeze_queue_waits_destroy(freeze_queue_waits *waits);

/* Allocates and initializes a freeze_queue_waits, for languages that don't know its size; returns NULL if that fails. The
 * second call frees it once it is destroyed or has ended; ERR_OPEN before that. */
FREEZE_QUEUE_MUST_USE FREEZE_QUEUE_CALL freeze_queue_waits *freeze_queue_waits_new(freeze_queue *queue);
FREEZE_QUEUE_CALL freeze_queue_answer freeze_queue_waits_free(freeze_queue_waits *waits);

/* ---- Submitters ---- */

/* Whether the queue is marked dying: no request enters any more, except by freeze_queue_try_enter_frozen while requests are
 * still in flight. Linux: blk_queue_dying. */
FREEZE_QUEUE_CALL bool freeze_queue_waits_is_dying(freeze_queue_waits *waits);

/* Shows the queue's state: wakes the threads that wait for it, sets the events, and has depth, limits and is_drained tell it. Call
 * it after a call of freeze_queue.h whose result makes freeze_queue_is_drained true, or that freezes, sets or thaws. If another
 * call has the lock, that call does it, and this one doesn't wait. */
FREEZE_QUEUE_CALL void freeze_queue_waits_notify(freeze_queue_waits *waits);

/* Enters unless the queue is frozen: OK, NOT_ENTERED. After NOT_ENTERED try again once live_event is readable. ERR_CLOSED,
 * ERR_BAD_SLOT, ERR_ALREADY_ENTERED, ERR_DYING. The queue of the tag isn't checked: a tag of another live queue enters that
 * queue. If that queue is frozen, the call returns ERR_OTHER_QUEUE. */
FREEZE_QUEUE_MUST_USE FREEZE_QUEUE_CALL freeze_queue_answer freeze_queue_waits_try_enter(freeze_queue_waits *waits,
                                                                                         freeze_queue_tag *tag,
                                                                                         uint32_t slot);

/* Enters, and waits while the queue is frozen: OK. ERR_BAD_DEADLINE, ERR_CLOSED, ERR_BAD_SLOT, ERR_ALREADY_ENTERED,
 * ERR_TIMED_OUT, ERR_DYING. A tag of another queue is treated as by freeze_queue_waits_try_enter. Linux: blk_queue_enter,
 * which returns ENODEV for a dying queue. */
FREEZE_QUEUE_MUST_USE FREEZE_QUEUE_CALL freeze_queue_answer freeze_queue_waits_enter(freeze_queue_waits *waits,
                                                                                     freeze_queue_tag *tag, uint32_t slot,
                                                                                     const struct timespec *deadline);

/* Leaves, and wakes the threads that wait for the drain if the queue is drained by this call: OK. ERR_CLOSED, ERR_BAD_SLOT,
 * ERR_TAG_NOT_ENTERED. The queue of the tag isn't checked: a tag of another queue leaves that queue. If that drains it, the
 * call returns ERR_OTHER_QUEUE: the tag has left, and no thread that waits for that drain wakes. */
FREEZE_QUEUE_MUST_USE FREEZE_QUEUE_CALL freeze_queue_answer freeze_queue_waits_leave(freeze_queue_waits *waits,
                                                                                     freeze_queue_tag *tag, uint32_t slot);

/* ---- Freezes ---- */

/* Begins a freeze, and doesn't wait for the drain: OK, or DRAINED. After OK drained_event is readable once the queue is
 * drained. To give the drain a deadline, set a timer of your own, and thaw when it expires. ERR_CLOSED, ERR_DEPTH_FULL,
 * ERR_WORN_OUT. */
FREEZE_QUEUE_MUST_USE FREEZE_QUEUE_CALL freeze_queue_answer freeze_queue_waits_begin_freeze(freeze_queue_waits *waits);

/* Whether the queue is frozen and drained. */
FREEZE_QUEUE_CALL bool freeze_queue_waits_is_drained(freeze_queue_waits *waits);

/* Freezes the queue, and waits until it is drained: OK. ERR_BAD_DEADLINE, ERR_CLOSED, ERR_DEPTH_FULL, ERR_WORN_OUT,
 * ERR_TIMED_OUT, after which the freeze is thawed, ERR_NOT_FROZEN if another thread has thawed it meanwhile. Linux: blk_mq_freeze_queue;
 * blk_mq_freeze_queue_wait_timeout leaves the queue frozen. */
FREEZE_QUEUE_MUST_USE FREEZE_QUEUE_CALL freeze_queue_answer freeze_queue_waits_freeze(freeze_queue_waits *waits,
                                                                                      const struct timespec *deadline);

/* Sets the limits of a drained queue. ERR_IN_UPDATE, ERR_CLOSED, ERR_HARDWARE_RANGE, ERR_ABOVE_HARDWARE, ERR_CHUNK_TOO_LARGE,
 * ERR_BAD_PHYSICAL, ERR_OTHER_HARDWARE, ERR_NOT_FROZEN, ERR_NOT_DRAINED. */
FREEZE_QUEUE_MUST_USE FREEZE_QUEUE_CALL freeze_queue_answer freeze_queue_waits_set(freeze_queue_waits *waits,
                                                                                   const freeze_queue_limits *limits);

/* Ends a freeze, drained or not: OK, or LIVE_AGAIN if it was the last, and the threads that wait to enter wake. Any thread may
 * thaw, once for each freeze. If there is a freeze whose call has returned, it ends that; otherwise the one of the oldest freeze, change or
 * update that hasn't returned, which returns ERR_NOT_FROZEN. ERR_CLOSED, ERR_NOT_FROZEN if there is no freeze. The freeze of
 * freeze_queue_waits_mark_dying doesn't count and can't be thawed. Linux: blk_mq_unfreeze_queue. */
FREEZE_QUEUE_MUST_USE FREEZE_QUEUE_CALL freeze_queue_answer freeze_queue_waits_thaw(freeze_queue_waits *waits);

/* Sets the mode of counting, as freeze_queue_mode does. ERR_CLOSED, ERR_BAD_MODE. */
FREEZE_QUEUE_MUST_USE FREEZE_QUEUE_CALL freeze_queue_answer freeze_queue_waits_mode(freeze_queue_waits *waits,
                                                                                    uint32_t mode);

/* Write the depth, and the limits in force, and take no lock. Another thread may change both before the call returns. ERR_CLOSED. */
FREEZE_QUEUE_CALL freeze_queue_answer freeze_queue_waits_depth(freeze_queue_waits *waits, uint32_t *depth);
FREEZE_QUEUE_CALL freeze_queue_answer freeze_queue_waits_limits(freeze_queue_waits *waits, freeze_queue_limits *limits);

/* Freezes the queue, sets its limits once it is drained, and thaws it: OK if they are set, also in a dying queue. It checks
 * the limits first, so no thread waits for limits that are refused. Changes and updates run one at a time, in the order in which
 * they came. ERR_BAD_DEADLINE, ERR_CLOSED, the refusals of limits, ERR_OTHER_HARDWARE, ERR_TIMED_OUT, ERR_IN_UPDATE,
 * ERR_DEPTH_FULL, ERR_WORN_OUT, and ERR_NOT_FROZEN if another thread has thawed its freeze. */
FREEZE_QUEUE_MUST_USE FREEZE_QUEUE_CALL freeze_queue_answer freeze_queue_waits_change(freeze_queue_waits *waits,
                                                                                      const freeze_queue_limits *limits,
                                                                                      const struct timespec *deadline);

/* Freezes the queue, waits for the drain, calls a function that changes the limits, and thaws. No change by another thread is
 * lost. The function gets the argument, and a copy of the limits in force, in which max and physical aren't 0. No lock is held
 * while it runs, so calls of other threads go on, and return by their deadlines. If another thread sets the limits of the
 * drained queue meanwhile (freeze_queue_waits_set), the function is called again with the new limits. No request is in flight
 * meanwhile, and each request that enters after the thaw sees what the function wrote. If the function returns OK, the copy is
 * set, also in a dying queue. If it returns 16 or more (64 and above are free for your use), nothing is set, and the call returns
 * that number. After a number from 1 to 15 the call returns ERR_BAD_RETURN. The deadline limits the wait for earlier updates and
 * for the drain. A function that returns late still takes effect, unless another thread's set forces a second call.
 *
 * The function may read the depth and the limits. If it calls set, change, update or end, that call returns ERR_IN_UPDATE.
 * Don't enter in it: the queue stays frozen until the function has returned, so freeze_queue_waits_enter never returns. Don't
 * thaw in it, except to end a freeze that it began: any other thaw may end the freeze of the update, after which nothing is set. A freeze in
 * it finds the queue drained, and lasts beyond the update until it is thawed. The function has to return: if its thread ends in it, or an
 * exception leaves it, the program aborts with a message. No thread is cancelled while it waits in a call, or in this function.
 *
 * ERR_BAD_DEADLINE, ERR_CLOSED, ERR_DEPTH_FULL, ERR_WORN_OUT, ERR_TIMED_OUT, ERR_NOT_FROZEN as freeze_queue_waits_change, and the refusals of set. Linux:
 * queue_limits_start_update and queue_limits_commit_update_frozen. */
FREEZE_QUEUE_MUST_USE FREEZE_QUEUE_CALL freeze_queue_answer
freeze_queue_waits_update(freeze_queue_waits *waits, uint32_t (*function)(freeze_queue_limits *limits, void *argument),
                          void *argument, const struct timespec *deadline);

/* ---- Tags ---- */

/* Give a tag of the queue to a closed handle, and take back a tag that hasn't entered, as freeze_queue_next_tag and
 * freeze_queue_give_tag_back do. If a tag that is given back drains the queue, the call returns OK and wakes the threads that
 * wait for the drain. If freeze_queue_waits_end may run at the same time, giving the tag back is the thread's last
 * call. */
FREEZE_QUEUE_MUST_USE FREEZE_QUEUE_CALL freeze_queue_answer freeze_queue_waits_next_tag(freeze_queue_waits *waits,
                                                                                        freeze_queue_tag *tag);
FREEZE_QUEUE_MUST_USE FREEZE_QUEUE_CALL freeze_queue_answer freeze_queue_waits_give_tag_back(freeze_queue_waits *waits,
                                                                                             freeze_queue_tag *tag);

/* ---- A dying queue, and its end ---- */

/* Marks the queue dying forever, by a freeze that no call thaws, and doesn't wait for the drain: OK, also a second time. Calls
 * that wait to enter, and later calls that enter, return ERR_DYING; freezes and changes work as before. live_event is readable,
 * so that an event loop tries and gets ERR_DYING. Requests in flight go on; once the queue is drained, no request uses the
 * device any more. ERR_CLOSED, ERR_DEPTH_FULL, ERR_WORN_OUT. Linux: QUEUE_FLAG_DYING and blk_queue_start_drain, as in
 * blk_mq_destroy_queue; GD_DEAD for a bio. */
FREEZE_QUEUE_MUST_USE FREEZE_QUEUE_CALL freeze_queue_answer freeze_queue_waits_mark_dying(freeze_queue_waits *waits);

/* Marks the queue dying, waits until each tag was given back and no other call sleeps, removes the queue, and destroys the
 * freeze_queue_waits: OK. End pools first (freeze_queue_pool_end).
 *
 * Once this call begins, a thread may begin another call of these waits only while it has a tag, and giving that back is its
 * last call. This call waits for calls that already sleep. A freeze that a thread still holds doesn't stop it, and mustn't be
 * thawed any more. After OK no call is inside, and the memory of the waits and of the queue may be freed. After ERR_TIMED_OUT
 * the queue stays dying; other calls are allowed until the next freeze_queue_waits_end, and a thread that holds a freeze may
 * thaw it.
 *
 * ERR_BAD_DEADLINE, ERR_CLOSED, ERR_IN_UPDATE, ERR_IN_USE while another call of freeze_queue_waits_end waits, ERR_DEPTH_FULL, ERR_WORN_OUT,
 * ERR_TIMED_OUT, and the refusals of remove except ERR_TAGS_OUT. Linux: blk_mq_destroy_queue. */
FREEZE_QUEUE_MUST_USE FREEZE_QUEUE_CALL freeze_queue_answer freeze_queue_waits_end(freeze_queue_waits *waits,
                                                                                   freeze_queue_final *last,
                                                                                   const struct timespec *deadline);

/* ---- Events ---- */

/* Opens both events, on Linux: OK. Call it before other threads use the waits. A daemon opens them once, after it forks: calls
 * in a child don't set events that its parent opened. ERR_OPEN if they are open, ERR_NO_EVENT. */
FREEZE_QUEUE_MUST_USE FREEZE_QUEUE_CALL freeze_queue_answer freeze_queue_waits_open_events(freeze_queue_waits *waits);

/* Return the descriptors of the events, or -1 if they aren't open. live_event is readable while the queue is live or dying,
 * drained_event while it is drained; a change that needn't wait for the drain leaves both as they are. Poll them for reading, and never
 * read them. The library closes both in freeze_queue_waits_destroy and freeze_queue_waits_end. */
FREEZE_QUEUE_CALL int freeze_queue_waits_live_event(freeze_queue_waits *waits);
FREEZE_QUEUE_CALL int freeze_queue_waits_drained_event(freeze_queue_waits *waits);

#ifdef FREEZE_QUEUE_BODIES
#include "freeze_queue/waits.h"
#endif

#ifdef __cplusplus
}
#endif
#endif
