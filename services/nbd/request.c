/* A request: takes a tag, enters the queue, is cut by the limits in force and done piece by piece, and leaves. */
#define NBDKIT_API_VERSION 2
#include "service.h"
#include <errno.h>
#include <nbdkit-plugin.h>
#include <sched.h>

#ifdef WATCHED
#include "watch.h" /* tests/nbd: records the limits that cut each request */
#else
#define watch_piece(tag, wanted, limits, from, to)
#endif

/* A waiting request checks once a second whether its client is still there. If more than a thousand wait, they check less
 * often: at most a thousand checks a second. In nanoseconds. */
enum { LOOK_AFTER = 1000 * 1000 * 1000, BETWEEN_LOOKS = 1000 * 1000 };

/* nbdkit has more threads than there are processors, so the slot is the processor's: no other processor writes there. */
static uint32_t slot_of_this_processor(void)
{
    int processor = sched_getcpu();
    uint32_t slot = processor < 0 ? 0 : (uint32_t)processor;
    return slot < blkq.slots ? slot : slot % blkq.slots;
}

/* Where the search for a tag begins: the slots' places are spread over the pool, so a processor most often takes the tag that it gave back,
 * and the tag and its counts are in its cache. */
static uint32_t place_of(uint32_t slot) { return slot * blkq.tags_apart >> 16; }

/* ---- Counts ---- */

/* The pool's tags lie behind one another. */
static counts *counts_of(const freeze_queue_tag *tag)
{
    return &blkq.counts[(uintptr_t)tag / sizeof(freeze_queue_pooled) - blkq.first_tag];
}

/* A tag's counts have one writer at a time, so no locked instruction is needed. */
static void add(atomic_uint_fast64_t *count, uint64_t more)
{
    atomic_store_explicit(count, atomic_load_explicit(count, memory_order_relaxed) + more, memory_order_relaxed);
}

static void count_duration(histogram *durations, uint64_t nanoseconds)
{
    uint64_t microseconds = (nanoseconds + 999) / 1000;
    uint32_t place = microseconds <= 1 ? 0 : 64 - (uint32_t)__builtin_clzll(microseconds - 1);
    add(&durations->buckets[place < BUCKETS ? place : BUCKETS - 1], 1);
    add(&durations->nanoseconds, nanoseconds);
}

/* ---- Waiting, out of the way of requests that don't ---- */

#define APART __attribute__((cold, noinline))

static struct timespec next_look(void)
{
    uint64_t all = (uint64_t)atomic_load(&blkq.waiting) * BETWEEN_LOOKS;
    return freeze_queue_deadline(all > LOOK_AFTER ? all : LOOK_AFTER);
}

/* Whether the server ends or the client has gone. In both cases nbdkit refuses to let the connection's threads sleep. */
static bool is_unwanted(void) { return freeze_queue_waits_is_dying(&blkq.waits) || nbdkit_nanosleep(0, 1) != 0; }

static void begin_waiting(void)
{
    if (atomic_fetch_add(&blkq.waiting, 1) == 0)
        watch_for_the_end();
}

static void end_waiting(void) { atomic_fetch_sub(&blkq.waiting, 1); }

/* Waits for a tag; NULL if the request isn't wanted any more. */
APART static freeze_queue_tag *wait_for_tag(uint32_t place)
{
    freeze_queue_tag *tag = NULL;
    uint32_t refused;
    begin_waiting();
    do {
        struct timespec look = next_look();
        refused = freeze_queue_pool_take_waiting(&blkq.pool, place, &look, &tag);
    } while (refused == FREEZE_QUEUE_ERR_TIMED_OUT && !is_unwanted());
    end_waiting();
    return tag;
}

/* The errno for the result of entering, unless the queue is frozen. */
static int errno_of(uint32_t entered)
{
    if (entered == FREEZE_QUEUE_OK)
        return 0;
    return entered == FREEZE_QUEUE_ERR_DYING ? ESHUTDOWN : EIO;
}

/* Waits for the thaw, and enters: 0, or an errno of serve. */
APART static int wait_for_thaw(freeze_queue_tag *tag, uint32_t slot)
{
    uint32_t entered;
    bool is_wanted = true;
    begin_waiting();
    do {
        struct timespec look = next_look();
        entered = freeze_queue_waits_enter(&blkq.waits, tag, slot, &look);
    } while (entered == FREEZE_QUEUE_ERR_TIMED_OUT && (is_wanted = !is_unwanted()));
    end_waiting();
    return is_wanted ? errno_of(entered) : ESHUTDOWN;
}

/* ---- Under the tag ---- */

/* The end of the next piece of a request that is done up to here, in bytes; 0 if the queue refuses. The sectors that the request
 * touches are cut. A piece doesn't end inside a block of the backend: it ends before that block, or after it if it begins there.
 * first_piece takes starts below 2^33. Chunks and physical blocks repeat in each period, so a later start is reduced by periods. */
static uint64_t piece_end(const freeze_queue_limits *limits, const request *wanted, uint64_t from)
{
    uint64_t end = wanted->offset + wanted->count, start = from / SECTOR, sectors = (end - 1) / SECTOR + 1 - start, place = start;
    uint32_t piece;
    if (start >> 33 != 0)
        place %= (uint64_t)limits->physical * (limits->chunk > 0 ? limits->chunk : 1);
    if (freeze_queue_first_piece(limits, place, (uint32_t)sectors, &piece) != FREEZE_QUEUE_OK)
        return 0;
    uint64_t to = (start + piece) * SECTOR;
    if (to < end && to % wanted->minimum != 0) {
        to -= to % wanted->minimum;
        if (to <= from)
            to += wanted->minimum;
    }
    return to < end ? to : end;
}

/* Does the pieces of a request, and counts them. Its tag is entered, so no limit changes meanwhile. */
static int do_pieces(freeze_queue_tag *tag, const request *wanted, uint32_t *pieces)
{
    freeze_queue_limits limits;
    uint64_t end = wanted->offset + wanted->count;
    if (freeze_queue_limits_of(tag, &limits) != FREEZE_QUEUE_OK)
        return EIO;
    for (uint64_t from = wanted->offset, to; from < end; from = to) {
        to = piece_end(&limits, wanted, from);
        if (to == 0)
            return EIO;
        if (wanted->is_whole && to < end)
            return ENOTSUP;
        int failed = wanted->do_piece(wanted, from, (uint32_t)(to - from), to == end);
        if (failed != 0)
            return failed;
        ++*pieces;
        watch_piece(tag, wanted, &limits, from, to);
    }
    return 0;
}

/* Does a request whose tag is entered. A flush and a query for extents move no bytes, and aren't cut. */
static int do_request(freeze_queue_tag *tag, const request *wanted, uint32_t *pieces)
{
    if (wanted->operation != EXTENTS && wanted->operation != FLUSH)
        return do_pieces(tag, wanted, pieces);
    *pieces = 1;
    return wanted->do_piece(wanted, wanted->offset, wanted->count, true);
}

/* Counts a request before it leaves, so that counts don't change while the queue is drained. */
static void count_request(operation_counts *mine, const request *wanted, uint32_t pieces, int failed, uint64_t began)
{
    add(&mine->pieces, pieces);
    if (failed != 0) {
        add(&mine->failed, 1);
        return;
    }
    add(&mine->bytes, wanted->count);
    count_duration(&mine->latency, now() - began);
}

/* Notes what a tag is doing, for `requests`. A reader that comes between two stores may see a part of the request before. */
static void note_request(counts *counted, const request *wanted, uint64_t began)
{
    atomic_store_explicit(&counted->operation, (unsigned)wanted->operation, memory_order_relaxed);
    atomic_store_explicit(&counted->offset, wanted->offset, memory_order_relaxed);
    atomic_store_explicit(&counted->length, wanted->count, memory_order_relaxed);
    atomic_store_explicit(&counted->since, began, memory_order_relaxed);
}

/* Enters, does the request, and leaves. */
static int pass_queue(freeze_queue_tag *tag, const request *wanted, uint32_t slot, uint64_t began, bool has_waited)
{
    counts *counted = counts_of(tag);
    operation_counts *mine = &counted->of[wanted->operation];
    uint32_t pieces = 0, entered = freeze_queue_waits_try_enter(&blkq.waits, tag, slot);
    if (entered == FREEZE_QUEUE_NOT_ENTERED && blkq.nowait) {
        add(&counted->again, 1);
        return EAGAIN;
    } else if (entered == FREEZE_QUEUE_NOT_ENTERED) {
        int refused = wait_for_thaw(tag, slot);
        if (refused != 0)
            return refused;
        has_waited = true;
    } else if (entered != FREEZE_QUEUE_OK) {
        return errno_of(entered);
    }
    if (has_waited)
        count_duration(&mine->waiting, now() - began);
    note_request(counted, wanted, began);
    int failed = do_request(tag, wanted, &pieces);
    count_request(mine, wanted, pieces, failed, began);
    atomic_store_explicit(&counted->since, 0, memory_order_relaxed);
    return freeze_queue_waits_leave(&blkq.waits, tag, slot) == FREEZE_QUEUE_OK ? failed : EIO;
}

int serve(const request *wanted)
{
    uint32_t slot = slot_of_this_processor(), place = place_of(slot);
    uint64_t began = now();
    freeze_queue_tag *tag = freeze_queue_pool_take(&blkq.pool, place);
    bool has_waited = tag == NULL;
    if (tag == NULL && (tag = wait_for_tag(place)) == NULL)
        return ESHUTDOWN;
    int failed = pass_queue(tag, wanted, slot, began, has_waited);
    freeze_queue_pool_give(&blkq.pool, tag);
    return failed;
}
