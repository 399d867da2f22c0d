/*
 * A pool of a queue's tags, which threads take and give back with no allocation, and with no lock unless a call waits for a tag.
 *
 * A program needs a pool if its requests end on other threads than they begin on, or if its threads come and go. A request
 * takes a tag (take, take_waiting), enters with it, may move to another thread, leaves with it and gives it back (give). A
 * pool is all zero before it is filled, as freeze_queue_pool_new makes it, and holds tags of one queue. To end a service,
 * mark the queue dying, end the pool, join your threads, end the queue. See freeze_queue_pool(3).
 */
#ifndef FREEZE_QUEUE_POOL_H
#define FREEZE_QUEUE_POOL_H

#include "freeze_queue_waits.h"

#ifdef __cplusplus
extern "C" {
#endif

/* The size leaves room for later versions. */
typedef struct freeze_queue_pool {
    void *opaque[62] FREEZE_QUEUE_ZEROED;
    freeze_queue_reserve reserved;
} freeze_queue_pool;

#if defined(__cplusplus) || __STDC_VERSION__ >= 201112L
static_assert(sizeof(freeze_queue_pool) == 64 * sizeof(void *), "as the library has it");
#endif

/* A tag that is out, and its place in the pool. If the pool was watched when the tag was taken, slot has the hint of that call,
 * since the nanoseconds of CLOCK_MONOTONIC, and thread the thread that took the tag (pthread_self). If not, these three are 0. */
typedef struct freeze_queue_taken {
    uint32_t place;
    uint32_t slot;
    uint64_t since;
    uint64_t thread;
} freeze_queue_taken;

/* ---- Taken and given back ---- */

/* Takes a tag: the tag of place hint (modulo the number of tags) if it is in the pool, else another. Any hint is valid. With its
 * slot as the hint a thread most often gets the tag that it gave back last.
 *
 * Returns NULL if the call finds every tag out, or if the pool isn't filled or has ended; while the pool ends, the call may still
 * find a tag. If the event is open, try again once it is readable. The event stays readable once the pool ends, so a loop has to
 * tell the two cases apart: freeze_queue_pool_take_waiting with a deadline that has passed, such as freeze_queue_deadline(0),
 * returns ERR_TIMED_OUT if every tag is out, and ERR_CLOSED if the pool ends. */
FREEZE_QUEUE_MUST_USE FREEZE_QUEUE_CALL freeze_queue_tag *freeze_queue_pool_take(freeze_queue_pool *pool, uint32_t hint);

/* Gives a tag back to the pool that gave it, and wakes a call that waits for a tag. ERR_TAG_NOT_OUT if the tag was given back
 * already, and no thread has taken it since. */
FREEZE_QUEUE_CALL freeze_queue_answer freeze_queue_pool_give(freeze_queue_pool *pool, freeze_queue_tag *tag);

/* Takes a tag and writes it: OK. Waits for a tag if every tag is out. ERR_BAD_DEADLINE, ERR_TIMED_OUT, and ERR_CLOSED if the
 * pool isn't filled or has ended, or ends while every tag is out. */
FREEZE_QUEUE_MUST_USE FREEZE_QUEUE_CALL freeze_queue_answer freeze_queue_pool_take_waiting(freeze_queue_pool *pool,
                                                                                           uint32_t hint,
                                                                                           const struct timespec *deadline,
                                                                                           freeze_queue_tag **tag);

/* ---- Tags in flight ---- */

/* Starts or stops noting when each tag is taken, with which hint and by which thread. Any thread may call it. */
FREEZE_QUEUE_CALL void freeze_queue_pool_watch(freeze_queue_pool *pool, bool watched);

/* Writes the tags that are out into a list of `room` entries. Returns the number of tags that are out, which may exceed `room`.
 * The call looks at one tag after another. It may miss a request that begins or ends meanwhile, or mix it up with the next
 * request of its tag. While freeze_queue_pool_end runs, the list has only the tags that it still waits for. Linux: the `busy`
 * file in debugfs. */
FREEZE_QUEUE_CALL uint32_t freeze_queue_pool_in_flight(freeze_queue_pool *pool, freeze_queue_taken *list, uint32_t room);

/* ---- Filled and emptied ---- */

/* Allocates a pool that isn't filled; returns NULL without memory. */
FREEZE_QUEUE_MUST_USE FREEZE_QUEUE_CALL freeze_queue_pool *freeze_queue_pool_new(void);

/* Fills a pool with 1 to 1,023 tags of the queue of the waits. It allocates 128 bytes for each tag, and up to 4 KiB for the
 * marks. ERR_OPEN if the pool is filled or has ended and isn't destroyed, ERR_BAD_SIZE, ERR_NO_MEMORY also if a mutex or a
 * condition variable is refused, and the refusals of next_tag. After a refusal the queue has its tags back. */
FREEZE_QUEUE_MUST_USE FREEZE_QUEUE_CALL freeze_queue_answer freeze_queue_pool_fill(freeze_queue_pool *pool,
                                                                                   freeze_queue_waits *waits, uint32_t count);

/* Gives all tags of a pool back to their queue, and doesn't wait: OK. No other thread may take or list tags meanwhile. Call it
 * before you fill the pool with another number of tags, or once your threads have ended; beside threads that use the pool call
 * freeze_queue_pool_end. After OK the pool's memory may be freed, even if another thread has only just given the last tag back.
 * ERR_CLOSED if the pool isn't filled, ERR_TAGS_OUT if tags are out, and the refusals of give_tag_back, after which the pool
 * keeps the tags that weren't given back. */
FREEZE_QUEUE_MUST_USE FREEZE_QUEUE_CALL freeze_queue_answer freeze_queue_pool_empty(freeze_queue_pool *pool);

/* ---- The end ---- */

/* Waits until each tag is back and no call waits for a tag, and gives the tags back to their queue: OK. Meanwhile and later,
 * calls that wait for a tag return ERR_CLOSED, and the event is readable. Mark the queue dying first: otherwise a request may
 * keep its tag while it waits for a thaw. After OK no call of freeze_queue_pool_give is inside. Destroy or free the pool once no
 * thread takes tags, before or after freeze_queue_waits_end.
 *
 * Don't wait here on a thread whose own requests have tags, such as an event loop: it would wait for itself. It gives these tags
 * back first, or lets another thread end the pool. After ERR_TIMED_OUT the pool stays filled and usable. ERR_BAD_DEADLINE,
 * ERR_CLOSED if the pool isn't filled, ERR_IN_USE if another call ends it, and the refusals of give_tag_back, after which the
 * pool stays filled with the tags that weren't given back. */
FREEZE_QUEUE_MUST_USE FREEZE_QUEUE_CALL freeze_queue_answer freeze_queue_pool_end(freeze_queue_pool *pool,
                                                                                  const struct timespec *deadline);

/* Destroys a pool that was emptied or has ended, once no thread takes its tags or lists them; it may be filled again. The
 * second call also frees a pool of freeze_queue_pool_new. ERR_OPEN if the pool is filled: nothing is done. */
FREEZE_QUEUE_CALL freeze_queue_answer freeze_queue_pool_destroy(freeze_queue_pool *pool);
FREEZE_QUEUE_CALL freeze_queue_answer freeze_queue_pool_free(freeze_queue_pool *pool);

/* ---- The event ---- */

/* Opens the event of a filled pool, on Linux, for a thread that waits for tags in poll: OK. Call it before other threads use
 * the pool. ERR_CLOSED if the pool isn't filled, ERR_OPEN if the event is open, ERR_NO_EVENT. */
FREEZE_QUEUE_MUST_USE FREEZE_QUEUE_CALL freeze_queue_answer freeze_queue_pool_open_event(freeze_queue_pool *pool);

/* Returns the descriptor of the event, or -1 if it isn't open, or once the pool has ended. It is readable from the start, until
 * freeze_queue_pool_take returns NULL; then it is readable once a tag has come back, or the pool ends. So poll it only after a
 * NULL, for reading, and never read it.
 * freeze_queue_pool_empty, destroy and free close it; freeze_queue_pool_end doesn't. */
FREEZE_QUEUE_CALL int freeze_queue_pool_event(freeze_queue_pool *pool);

#ifdef FREEZE_QUEUE_BODIES
#include "freeze_queue/pool.h"
#endif

#ifdef __cplusplus
}
#endif
#endif
