/*
 * The queue, for C99, C11 and C++: requests enter and leave on many threads, and a freeze changes the queue's limits.
 *
 * A request enters with a tag (try_enter), reads the limits (limits_of), is cut by them (first_piece), and leaves (leave). A
 * change freezes the queue (start_freeze), waits for the drain, sets the limits (set) and thaws (thaw). No call here waits,
 * takes a lock or retries, with one exception: try_enter_frozen with a biased tag (leave_biased). freeze_queue_waits.h has
 * the calls that wait. Once a queue has waits, call this header's functions that take the queue only while no other thread is
 * in a call of the waits or of a pool.
 *
 * Most calls return a freeze_queue_answer. 16 and above: the call was refused and changed nothing, except remove with
 * ERR_NO_MEMORY, after which the queue is gone. Below 16 the call was done, except NOT_ENTERED and NOT_ENTERED_LAST: the tag
 * isn't entered. The names in capitals below are a call's answers besides OK, without FREEZE_QUEUE_; if several apply, the
 * call returns the first. A sector has 512 bytes. See freeze_queue(3) for the order of memory, the preconditions, and examples.
 */
#ifndef FREEZE_QUEUE_H
#define FREEZE_QUEUE_H

#include <assert.h>
#include <stdbool.h>
#include <stdint.h>

#define FREEZE_QUEUE_VERSION_MAJOR 1
#define FREEZE_QUEUE_VERSION_MINOR 0
#define FREEZE_QUEUE_VERSION_PATCH 0
#define FREEZE_QUEUE_VERSION "1.0.0-rc.1"

#if defined(__GNUC__)
#define FREEZE_QUEUE_MUST_USE __attribute__((warn_unused_result))
#else
#define FREEZE_QUEUE_MUST_USE
#endif

/* The waits and the pool are calls of the library. With FREEZE_QUEUE_INLINE defined before the include, their code is compiled
 * into the program, and a biased tag enters and leaves in place. Fixes then need a recompile. With FREEZE_QUEUE_DEBUG or
 * -fsanitize=thread the code of the waits and the pool is compiled in too, but tags enter and leave by calls of the library, even
 * if FREEZE_QUEUE_INLINE is defined as well. Debug builds abort on: waits that aren't initialized, or were moved, destroyed or
 * ended; a tag with the waits of another queue, even if that queue is live; a tag given to another pool than its own; a tag given
 * back to its pool while it is entered; a thread that takes a lock that it has. See freeze_queue_waits(3) for what
 * FREEZE_QUEUE_INLINE saves, and which files of a program may differ in it. */
#if defined(__SANITIZE_THREAD__)
#define FREEZE_QUEUE_TELLS_TSAN 1
#elif defined(__has_feature)
#if __has_feature(thread_sanitizer)
#define FREEZE_QUEUE_TELLS_TSAN 1
#endif
#endif
#if defined(FREEZE_QUEUE_LIBRARY)
#define FREEZE_QUEUE_CALL
#define FREEZE_QUEUE_BODIES 1
#elif defined(FREEZE_QUEUE_INLINE) || defined(FREEZE_QUEUE_DEBUG) || defined(FREEZE_QUEUE_TELLS_TSAN)
#define FREEZE_QUEUE_CALL static inline
#define FREEZE_QUEUE_BODIES 1
#else
#define FREEZE_QUEUE_CALL
#endif

#ifdef __cplusplus
#define FREEZE_QUEUE_OF_32_BITS : uint32_t
#define FREEZE_QUEUE_ZEROED {}
extern "C" {
#else
#define FREEZE_QUEUE_OF_32_BITS
#define FREEZE_QUEUE_ZEROED
#endif

enum {
    FREEZE_QUEUE_MOST_SLOTS = 512,
    FREEZE_QUEUE_MOST_TAGS = 1023,
    FREEZE_QUEUE_MOST_DEPTH = 1000,     /* freezes that aren't thawed yet */
    FREEZE_QUEUE_MOST_HARDWARE = 65535, /* sectors that the hardware takes, and of a chunk */
    FREEZE_QUEUE_MOST_PHYSICAL = 32768  /* sectors of a physical block */
};

/* Two words of a handle that the library and these headers use. Don't touch them. In C++ they make a handle non-copyable. */
typedef struct freeze_queue_reserve {
    void *words[2] FREEZE_QUEUE_ZEROED;
#ifdef __cplusplus
    freeze_queue_reserve() = default;
    freeze_queue_reserve(const freeze_queue_reserve &) = delete;
    freeze_queue_reserve &operator=(const freeze_queue_reserve &) = delete;
#endif
} freeze_queue_reserve;

/* A handle has an open flag, a pointer to the library's data, and reserved words. It has to be all zero before its first call; in
 * C++ its constructor sees to that. A call that closes a handle clears its flag and its pointer. Tags may be used by other
 * threads at the same time as the queue's handle. */
typedef struct freeze_queue {
    bool is_open FREEZE_QUEUE_ZEROED;
    void *at FREEZE_QUEUE_ZEROED;
    freeze_queue_reserve reserved;
} freeze_queue;
typedef struct freeze_queue_tag {
    bool is_open FREEZE_QUEUE_ZEROED;
    uint32_t lent_slots FREEZE_QUEUE_ZEROED; /* internal: freeze_queue/lane.h */
    void *at FREEZE_QUEUE_ZEROED;
    freeze_queue_reserve reserved;
} freeze_queue_tag;

/* Limits, in sectors. hardware is the maximum that the hardware takes in one command, from 1 to 65,535; it stays the same for
 * the queue's whole life. max is the maximum that is sent in one command, from 1 to hardware; 0 means hardware. No piece
 * crosses a multiple of chunk, which is at most 65,535; 0 means no chunks. A piece ends at the end of a physical block if it
 * can: physical is a power of two from 1 to 32,768, and 0 means 1. {.hardware = 64} has the defaults. Linux: struct
 * queue_limits (include/linux/blkdev.h). */
typedef struct freeze_queue_limits {
    uint32_t hardware;
    uint32_t max;
    uint32_t chunk;
    uint32_t physical;
} freeze_queue_limits;

/* The last state of a queue that was removed: whether it was frozen (it always is), how often it was frozen while live, how
 * often it drained, and its limits. Removing a live queue freezes it, and that counts. */
typedef struct freeze_queue_final {
    bool dead;
    uint64_t kills;
    uint64_t releases;
    freeze_queue_limits limits;
} freeze_queue_final;

#if defined(__cplusplus) || __STDC_VERSION__ >= 201112L
static_assert(sizeof(freeze_queue) == 32, "a handle is four words");
static_assert(sizeof(freeze_queue_tag) == 32, "a handle is four words");
static_assert(sizeof(freeze_queue_limits) == 16, "as the library has it");
static_assert(sizeof(freeze_queue_final) == 40, "as the library has it");
#endif

/* How a live queue counts: on slots, which is quick if each thread has a slot of its own, or on one shared word. */
enum { FREEZE_QUEUE_MODE_SLOTS = 0, FREEZE_QUEUE_MODE_ATOMIC = 1 };

/* Answers. Below 16 the call was done, or the tag isn't entered because the queue is frozen. 16 and above: the call was refused,
 * and the name has ERR. Both libraries have the same numbers for what both refuse: 21, and 32 to 47. */
typedef enum freeze_queue_answer FREEZE_QUEUE_OF_32_BITS {
    FREEZE_QUEUE_OK = 0,               /* done; the tag is entered; a leave that isn't the last */
    FREEZE_QUEUE_LAST = 1,             /* of leave, and of give_tag_back: the queue is drained by this call */
    FREEZE_QUEUE_NOT_ENTERED = 2,      /* the tag isn't entered: the queue is frozen (or, for try_enter_frozen, drained) */
    FREEZE_QUEUE_NOT_ENTERED_LAST = 3, /* the same, and the queue is drained by this call */
    FREEZE_QUEUE_DRAINED = 4,          /* of start_freeze: the queue is drained already */
    FREEZE_QUEUE_LIVE_AGAIN = 5,       /* of thaw: requests enter again */
    /* the queue's own refusals */
    FREEZE_QUEUE_ERR_DEPTH_FULL = 17,  /* 1,000 freezes aren't thawed yet */
    FREEZE_QUEUE_ERR_NOT_FROZEN = 18,
    FREEZE_QUEUE_ERR_NOT_DRAINED = 19, /* a tag is still entered, or a try that doesn't enter is briefly counted */
    FREEZE_QUEUE_ERR_TAGS_OUT = 20,    /* tags weren't given back */
    FREEZE_QUEUE_ERR_WORN_OUT = 21,    /* frozen 2^40 times */
    /* refusals of limits */
    FREEZE_QUEUE_ERR_ABOVE_HARDWARE = 25,  /* max is above hardware */
    FREEZE_QUEUE_ERR_CHUNK_TOO_LARGE = 26, /* above 65,535 */
    FREEZE_QUEUE_ERR_HARDWARE_RANGE = 27,  /* not from 1 to 65,535 */
    FREEZE_QUEUE_ERR_BAD_PHYSICAL = 28,    /* neither 0 nor a power of two from 1 to 32,768 */
    FREEZE_QUEUE_ERR_OTHER_HARDWARE = 29,  /* of set: hardware isn't the queue's */
    /* of freeze_queue_waits.h and freeze_queue_pool.h alone */
    FREEZE_QUEUE_ERR_TIMED_OUT = 30, /* the deadline has passed */
    FREEZE_QUEUE_ERR_DYING = 31,     /* the queue is marked dying: no request enters any more */
    /* misuse, and want of memory or tags */
    FREEZE_QUEUE_ERR_CLOSED = 32,      /* the handle is closed */
    FREEZE_QUEUE_ERR_OPEN = 33,        /* the handle is open */
    FREEZE_QUEUE_ERR_BAD_SLOT = 34,    /* the queue has no such slot */
    FREEZE_QUEUE_ERR_BAD_SIZE = 35,    /* not 1 to 512 slots, or not 1 to 1,023 tags */
    FREEZE_QUEUE_ERR_NO_MEMORY = 36,
    FREEZE_QUEUE_ERR_IN_USE = 37,      /* the queue has waits, or another call uses the waits or ends the pool */
    FREEZE_QUEUE_ERR_OTHER_QUEUE = 38, /* the tag is of another queue */
    FREEZE_QUEUE_ERR_NO_TAG = 39,      /* every tag was given out */
    /* misuse of a queue alone */
    FREEZE_QUEUE_ERR_ALREADY_ENTERED = 48, /* the tag has entered */
    FREEZE_QUEUE_ERR_TAG_NOT_ENTERED = 49, /* the tag hasn't entered */
    FREEZE_QUEUE_ERR_BAD_MODE = 50,        /* no such mode */
    FREEZE_QUEUE_ERR_BAD_RANGE = 51,       /* of first_piece: no sector, or a start at or beyond 2^33 */
    FREEZE_QUEUE_ERR_TAG_NOT_OUT = 52,     /* of a pool: the tag was given back already */
    FREEZE_QUEUE_ERR_BAD_DEADLINE = 53,    /* the nanoseconds of a deadline aren't from 0 to 999,999,999 */
    FREEZE_QUEUE_ERR_BAD_RETURN = 54,      /* the function of an update returned a number from 1 to 15 */
    FREEZE_QUEUE_ERR_IN_UPDATE = 55,       /* the function of an update called set, change, update or end */
    FREEZE_QUEUE_ERR_NO_EVENT = 56         /* no descriptor or memory for an event: errno says why */
} freeze_queue_answer;

/* Whether an answer of try_enter, try_enter_frozen, leave, give_tag_back or start_freeze says that the queue is drained. If so,
 * wake the threads that wait for the drain. */
static inline bool freeze_queue_is_drained(freeze_queue_answer answer)
{
    return answer == FREEZE_QUEUE_LAST || answer == FREEZE_QUEUE_NOT_ENTERED_LAST || answer == FREEZE_QUEUE_DRAINED;
}

/* Whether an answer says that the call was refused: 16 or more. */
static inline bool freeze_queue_is_refused(freeze_queue_answer answer) { return (uint32_t)answer >= 16; }

/* Whether an answer says that the call was refused for misuse, or for want of memory or tags: 32 or more. A tag that isn't
 * entered is no misuse, and neither is a refusal by the queue or of limits. */
static inline bool freeze_queue_is_misuse(freeze_queue_answer answer) { return (uint32_t)answer >= 32; }

/* Returns a short text for an answer. It is never freed. */
const char *freeze_queue_text(freeze_queue_answer answer);

/* Returns the version of the library, which isn't FREEZE_QUEUE_VERSION if the headers are another version's. It is never freed. */
const char *freeze_queue_version(void);

/* ---- A queue comes and goes: the thread that has the queue's handle. ---- */

/* Makes a live queue of these limits that counts on 1 to 512 slots, with 1 to 1,023 tags, and opens the handle, which must be
 * closed. ERR_OPEN, ERR_HARDWARE_RANGE, ERR_ABOVE_HARDWARE, ERR_CHUNK_TOO_LARGE, ERR_BAD_PHYSICAL, ERR_BAD_SIZE, ERR_NO_MEMORY.
 * Linux: blk_mq_init_queue (blk_mq_alloc_queue from 6.9 on). */
FREEZE_QUEUE_MUST_USE freeze_queue_answer freeze_queue_new(freeze_queue *queue, const freeze_queue_limits *limits,
                                                uint32_t slots, uint32_t tags);

/* Opens a tag's handle, which must be closed, for a free tag: a new one, or one that was given back. The queue is live or frozen.
 * ERR_CLOSED, ERR_OPEN, ERR_NO_TAG, ERR_NO_MEMORY. */
FREEZE_QUEUE_MUST_USE freeze_queue_answer freeze_queue_next_tag(freeze_queue *queue, freeze_queue_tag *tag);

/* Takes back a tag that hasn't entered, and closes its handle; next_tag may give it again. The queue is live or frozen. OK, or
 * LAST if the tag was biased and the end of its bias drains the queue. Allocates nothing. ERR_CLOSED, ERR_OTHER_QUEUE,
 * ERR_ALREADY_ENTERED. */
FREEZE_QUEUE_MUST_USE freeze_queue_answer freeze_queue_give_tag_back(freeze_queue *queue, freeze_queue_tag *tag);

/* Ends a queue, live or frozen, once each tag that next_tag gave is back; writes its last state, and closes the handle.
 * ERR_CLOSED, ERR_TAGS_OUT, ERR_WORN_OUT, ERR_IN_USE. ERR_IN_USE can't occur through this API. Reporting it or ERR_WORN_OUT
 * allocates; if that fails, the call returns ERR_NO_MEMORY and the queue is freed. Linux: blk_mq_destroy_queue. */
FREEZE_QUEUE_MUST_USE freeze_queue_answer freeze_queue_remove(freeze_queue *queue, freeze_queue_final *last);

/* Free the memory of a handle, and close it. A closed handle stays closed. The queue counts a freed tag as out forever: remove
 * returns ERR_TAGS_OUT, and free ends the queue. A tag that was freed while it was entered holds up every later drain. Tags whose
 * queue was freed still enter and leave; they can't be given back, so free them. A queue that has waits isn't freed: ERR_IN_USE,
 * until freeze_queue_waits_destroy or freeze_queue_waits_end. */
void freeze_queue_free_tag(freeze_queue_tag *tag);
freeze_queue_answer freeze_queue_free(freeze_queue *queue);

/* Return the unique id of the queue, starting at 1, among the queues that this copy of the library made; 0 for a closed
 * handle. */
uint64_t freeze_queue_tag_number(freeze_queue_tag *tag);
uint64_t freeze_queue_number(freeze_queue *queue);

/* ---- A tag enters and leaves: the thread that has it, anywhere except in a signal handler. ---- */

/* Enters unless the queue is frozen: OK, NOT_ENTERED, NOT_ENTERED_LAST. ERR_CLOSED, ERR_BAD_SLOT, ERR_ALREADY_ENTERED.
 * Linux: blk_queue_enter with BLK_MQ_REQ_NOWAIT. */
FREEZE_QUEUE_MUST_USE freeze_queue_answer freeze_queue_try_enter(freeze_queue_tag *tag, uint32_t slot);

/* Enters unless the queue is drained, also while it is frozen, to look at requests in flight: OK, NOT_ENTERED,
 * NOT_ENTERED_LAST. The drain waits until the tag leaves. If start_freeze is taking away the tag's bias at that moment, the
 * call waits for it. ERR_CLOSED, ERR_BAD_SLOT, ERR_ALREADY_ENTERED. Linux: percpu_ref_tryget of q_usage_counter. */
FREEZE_QUEUE_MUST_USE freeze_queue_answer freeze_queue_try_enter_frozen(freeze_queue_tag *tag, uint32_t slot);

/* Leaves: OK, or LAST if the queue is drained by this call. ERR_CLOSED, ERR_BAD_SLOT, ERR_TAG_NOT_ENTERED. Linux:
 * blk_queue_exit. */
FREEZE_QUEUE_MUST_USE freeze_queue_answer freeze_queue_leave(freeze_queue_tag *tag, uint32_t slot);

/* Leaves in the same way, and biases the tag unless the queue is frozen: its next requests enter and leave by a store and a
 * load, until a freeze takes the bias away. freeze_queue_waits_leave biases tags by this call. */
FREEZE_QUEUE_MUST_USE freeze_queue_answer freeze_queue_leave_biased(freeze_queue_tag *tag, uint32_t slot);

/* Writes the limits in force, which stay the same until the tag leaves. ERR_CLOSED, ERR_TAG_NOT_ENTERED. */
FREEZE_QUEUE_MUST_USE freeze_queue_answer freeze_queue_limits_of(freeze_queue_tag *tag, freeze_queue_limits *limits);

/* ---- The queue is frozen, set and thawed: the thread that has its handle. ---- */

/* Begins a freeze, and writes the depth: the number of freezes that aren't thawed yet, including this one. OK if requests are
 * in flight: the last leave returns LAST. DRAINED if the queue is drained; a leave may have returned LAST too. ERR_CLOSED,
 * ERR_DEPTH_FULL, ERR_WORN_OUT. Linux: blk_freeze_queue_start. */
FREEZE_QUEUE_MUST_USE freeze_queue_answer freeze_queue_start_freeze(freeze_queue *queue, uint32_t *depth);

/* Whether the queue is frozen and drained, which stays true until the last thaw; false for a closed handle. Linux:
 * percpu_ref_is_zero in blk_mq_freeze_queue_wait. */
bool freeze_queue_poll_drained(freeze_queue *queue);

/* Sets the limits of a drained queue, for the requests that enter after the thaw. ERR_CLOSED, ERR_HARDWARE_RANGE,
 * ERR_ABOVE_HARDWARE, ERR_CHUNK_TOO_LARGE, ERR_BAD_PHYSICAL, ERR_OTHER_HARDWARE, ERR_NOT_FROZEN, ERR_NOT_DRAINED. Linux:
 * queue_limits_commit_update, under a freeze. */
FREEZE_QUEUE_MUST_USE freeze_queue_answer freeze_queue_set(freeze_queue *queue, const freeze_queue_limits *limits);

/* Ends a freeze, drained or not, and writes how many freezes are left: LIVE_AGAIN if none is left, else OK. ERR_CLOSED,
 * ERR_NOT_FROZEN. Linux: blk_mq_unfreeze_queue. */
FREEZE_QUEUE_MUST_USE freeze_queue_answer freeze_queue_thaw(freeze_queue *queue, uint32_t *depth);

/* Sets the mode of counting, from now on or, if the queue is frozen, from the thaw on. ERR_CLOSED, ERR_BAD_MODE. Linux:
 * percpu_ref_switch_to_atomic_sync, percpu_ref_switch_to_percpu. */
FREEZE_QUEUE_MUST_USE freeze_queue_answer freeze_queue_mode(freeze_queue *queue, uint32_t mode);

/* Write the depth, 0 for a live queue, and the limits in force, in which max and physical aren't 0. ERR_CLOSED. Linux:
 * mq_freeze_depth. */
freeze_queue_answer freeze_queue_depth(freeze_queue *queue, uint32_t *depth);
freeze_queue_answer freeze_queue_limits_in_force(freeze_queue *queue, freeze_queue_limits *limits);

/* ---- The splitter ---- */

/* Writes the length of the first piece of count sectors from start on, 1 to count. It is count if max and the chunk allow
 * all of them. If not, the piece ends with the last physical block that they allow; if no block ends within them, the piece has
 * as many sectors as they allow. start is below 2^33, which is 4 TiB. The pieces repeat with a period of physical * chunk
 * sectors (of physical if chunk is 0), so on a larger disk give start modulo that. ERR_HARDWARE_RANGE, ERR_ABOVE_HARDWARE,
 * ERR_CHUNK_TOO_LARGE, ERR_BAD_PHYSICAL, ERR_BAD_RANGE. Linux: get_max_io_size (block/blk-merge.c). */
FREEZE_QUEUE_MUST_USE freeze_queue_answer freeze_queue_first_piece(const freeze_queue_limits *limits, uint64_t start,
                                                        uint32_t count, uint32_t *piece);

/* Code with the bodies of these headers in it links only with a library that lays the handles, the waits and the pool out alike: its
 * number in this name changes with the layout. */
#if defined(FREEZE_QUEUE_BODIES) && !defined(FREEZE_QUEUE_LIBRARY)
extern const char freeze_queue_layout_1;
static const char *const freeze_queue_layout __attribute__((used)) = &freeze_queue_layout_1;
#endif

/* ---- The thread sanitizer ---- */

/* The thread sanitizer doesn't see the library's atomic steps. In code that is compiled with -fsanitize=thread, each call
 * that orders memory is a macro, which announces to the sanitizer what freeze_queue(3) promises under "Order". The program
 * needs to do nothing else. */

#ifdef FREEZE_QUEUE_TELLS_TSAN
#include "freeze_queue/tsan.h"
#elif defined(FREEZE_QUEUE_LIBRARY) || (defined(FREEZE_QUEUE_INLINE) && !defined(FREEZE_QUEUE_DEBUG))
#include "freeze_queue/lane.h"
#endif

#ifdef __cplusplus
}
#endif
#endif
