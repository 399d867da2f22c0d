/* The bytes of a snapshot. Before a client changes a block that the snapshot still needs, the block's old bytes are copied into the overlay. A block is
 *
 *   IN_BACKEND  as it was: no client has changed it since
 *   IN_OVERLAY  as it was; a hole there stands for zeroes
 *   COPIED      in the backend as it was, but not needed any more, since a copier that reads each block once has read it
 *   GONE        nowhere, and not needed any more
 *
 * `current` is set while no request runs, so each change is either complete by then, or made by a request that sees it. It is cleared at any time: whoever
 * saw it looks again under the lock of a group. */
#include "snapshot.h"
#include <errno.h>
#include <fcntl.h>
#include <inttypes.h>
#include <stdlib.h>
#include <string.h>
#include <unistd.h>

typedef enum state { IN_BACKEND, IN_OVERLAY, COPIED, GONE = IN_OVERLAY | COPIED } state;

enum { LOCKS = 256, STATE_BITS = 2, MOST_ASKED = 1 << 30 /* bytes of the backend whose extents are asked for at once */ };

uint32_t snapshot_block = 16 * 1024;
uint64_t snapshot_most = UINT64_C(1) << 30;

static snapshot *_Atomic current; /* the snapshot that can be read; NULL: there is none */
static pthread_mutex_t locks[LOCKS];
static pthread_mutex_t reasons = PTHREAD_MUTEX_INITIALIZER;

void make_snapshot_locks(void)
{
    for (int i = 0; i < LOCKS; i++)
        pthread_mutex_init(&locks[i], NULL);
}

static pthread_mutex_t *lock_of(uint64_t block) { return &locks[block / GROUP % LOCKS]; }

void pass_locks(void)
{
    for (int i = 0; i < LOCKS; i++) {
        pthread_mutex_lock(&locks[i]);
        pthread_mutex_unlock(&locks[i]);
    }
}

static state state_of(const snapshot *one, uint64_t block)
{
    return (state)(one->states[block / GROUP] >> block % GROUP * STATE_BITS & 3);
}

/* A state only gains bits: what is in the overlay or copied may go. */
static void set_state(snapshot *one, uint64_t block, state to) { one->states[block / GROUP] |= (uint32_t)to << block % GROUP * STATE_BITS; }

static bool is_in_backend(const snapshot *one, uint64_t block) { return state_of(one, block) == IN_BACKEND || state_of(one, block) == COPIED; }

static bool is_unchanged(const snapshot *one, uint64_t block)
{
    return one->is_incremental && !is_in(one->changed, block) && !is_in(one->older, block);
}

/* The end of a block in bytes; the first block behind a group. */
static uint64_t end_of(const snapshot *one, uint64_t block)
{
    uint64_t end = (block + 1) * snapshot_block;
    return end < one->size ? end : one->size;
}

static uint64_t next_group(uint64_t block) { return (block / GROUP + 1) * GROUP; }

static uint64_t least(uint64_t one, uint64_t other) { return one < other ? one : other; }

/* ---- Its beginning and end ---- */

void take_snapshot(snapshot *one) { atomic_store(&current, one); }

bool end_reading(snapshot *one)
{
    snapshot *expected = one;
    return atomic_compare_exchange_strong(&current, &expected, NULL);
}

void break_snapshot(snapshot *one, const char *what, int failed)
{
    pthread_mutex_lock(&reasons);
    bool is_first = one->why[0] == '\0';
    if (is_first)
        snprintf(one->why, sizeof one->why, "%s%s%s", what, failed != 0 ? ": " : "", failed != 0 ? strerror(failed) : "");
    pthread_mutex_unlock(&reasons);
    if (is_first)
        nbdkit_error("blkq: the snapshot is lost: %s", one->why);
    if (end_reading(one))
        sweep_broken(one);
}

bool has_broken(snapshot *one, char why[REASON])
{
    pthread_mutex_lock(&reasons);
    strcpy(why, one->why);
    pthread_mutex_unlock(&reasons);
    return why[0] != '\0';
}

/* ---- The overlay ---- */

/* Reads or writes all of these bytes of the overlay: 0, or an errno. */
static int move_all(const snapshot *one, bool writes, char *bytes, uint64_t count, uint64_t offset)
{
    while (count > 0) {
        ssize_t done = writes ? pwrite(one->overlay, bytes, count, (off_t)offset) : pread(one->overlay, bytes, count, (off_t)offset);
        if (done == 0 || (done < 0 && errno != EINTR))
            return done == 0 ? EIO : errno;
        if (done > 0)
            bytes += done, count -= (uint64_t)done, offset += (uint64_t)done;
    }
    return 0;
}

static bool is_zero(const char *bytes, uint64_t count) { return bytes[0] == 0 && memcmp(bytes, bytes + 1, count - 1) == 0; }

static bool take_room(snapshot *one, uint64_t count)
{
    uint64_t used = atomic_fetch_add(&one->used, count) + count, peak = atomic_load(&one->peak);
    if (used > snapshot_most) {
        atomic_fetch_sub(&one->used, count);
        return false;
    }
    while (used > peak && !atomic_compare_exchange_weak(&one->peak, &peak, used)) {}
    return true;
}

/* Puts a block's bytes into the overlay. Returns whether the snapshot can still be read. */
static bool keep_block(snapshot *one, uint64_t block, char *bytes)
{
    uint64_t from = block * snapshot_block, count = end_of(one, block) - from;
    int failed = 0;
    if (!is_zero(bytes, count) && !take_room(one, count)) {
        break_snapshot(one, "the overlay is full (blkq-snapshot-max)", 0);
        return false;
    }
    if (!is_zero(bytes, count))
        failed = move_all(one, true, bytes, count, from);
    if (failed != 0)
        break_snapshot(one, "writing the overlay", failed);
    set_state(one, block, IN_OVERLAY);
    atomic_fetch_add(&one->kept, 1);
    return failed == 0;
}

/* Marks a block that the copier has read as not needed any more. The bytes are what it read. */
static void drop_block(snapshot *one, uint64_t block, const char *bytes)
{
    uint64_t from = block * snapshot_block, count = end_of(one, block) - from;
    if (is_in_backend(one, block)) {
        set_state(one, block, COPIED);
    } else if (fallocate(one->overlay, FALLOC_FL_PUNCH_HOLE | FALLOC_FL_KEEP_SIZE, (off_t)from, (off_t)count) == 0) {
        set_state(one, block, GONE);
        if (!is_zero(bytes, count))
            atomic_fetch_sub(&one->used, count);
    }
}

/* ---- Clients ---- */

static int read_backend(nbdkit_next *next, char *bytes, uint64_t count, uint64_t offset)
{
    int failed = 0;
    begin_call();
    bool done = next->pread(next, bytes, (uint32_t)count, offset, 0, &failed) == 0;
    end_call();
    return done ? 0 : failed != 0 ? failed : EIO;
}

/* Keeps blocks that are in the backend, by one read of it. Returns whether the snapshot can still be read. */
static bool keep_blocks(snapshot *one, uint64_t first, uint64_t end)
{
    uint64_t from = first * snapshot_block, count = end_of(one, end - 1) - from;
    char *bytes = malloc(count);
    int failed = bytes == NULL ? ENOMEM : read_backend(one->next, bytes, count, from);
    if (failed != 0)
        break_snapshot(one, "reading what a client is about to change", failed);
    bool is_kept = failed == 0;
    for (uint64_t block = first; is_kept && block < end; block++)
        is_kept = keep_block(one, block, bytes + (block - first) * snapshot_block);
    free(bytes);
    return is_kept;
}

/* Keeps the blocks of a range that are still needed. They are in one group, whose lock the caller has. */
static void keep_needed(snapshot *one, uint64_t first, uint64_t end)
{
    for (uint64_t block = first, to; block < end; block = to) {
        to = block + 1;
        if (state_of(one, block) == COPIED || (state_of(one, block) == IN_BACKEND && is_unchanged(one, block))) {
            set_state(one, block, GONE);
        } else if (state_of(one, block) == IN_BACKEND) {
            while (to < end && state_of(one, to) == IN_BACKEND && !is_unchanged(one, to))
                to++;
            if (!keep_blocks(one, block, to))
                return;
        }
    }
}

void change(uint64_t offset, uint32_t count)
{
    note_change(offset, count);
    if (atomic_load_explicit(&current, memory_order_acquire) == NULL || count == 0)
        return;
    uint64_t end = (offset + count - 1) / snapshot_block + 1;
    for (uint64_t block = offset / snapshot_block, to; block < end; block = to) {
        to = least(next_group(block), end);
        pthread_mutex_lock(lock_of(block));
        snapshot *one = atomic_load(&current);
        if (one != NULL)
            keep_needed(one, block, least(to, one->blocks)); /* what lies behind the snapshot's end is no part of it */
        pthread_mutex_unlock(lock_of(block));
    }
}

/* ---- The copier ---- */

/* The snapshot that a connection reads, under the lock of a group. NULL: it can't be read any more. */
static snapshot *read_by(const connection *by)
{
    snapshot *one = atomic_load(&current);
    return one != NULL && one->export == by->export ? one : NULL;
}

/* Reads a range that lies in one block, or in a run of blocks that are all in the backend. */
static int read_run(snapshot *one, nbdkit_next *next, char *bytes, uint64_t from, uint64_t to)
{
    uint64_t block = from / snapshot_block;
    if (is_in_backend(one, block))
        return read_backend(next, bytes, to - from, from);
    if (state_of(one, block) == IN_OVERLAY)
        return move_all(one, false, bytes, to - from, from);
    break_snapshot(one, "a block was read that isn't needed any more", 0);
    return EIO;
}

/* Reads a range in one group, whose lock the caller has. */
static int read_group(snapshot *one, nbdkit_next *next, char *bytes, uint64_t from, uint64_t end)
{
    int failed = end > one->size ? EINVAL : 0;
    for (uint64_t at = from, to; at < end && failed == 0; at = to) {
        to = least(end_of(one, at / snapshot_block), end);
        while (is_in_backend(one, at / snapshot_block) && to < end && is_in_backend(one, to / snapshot_block))
            to = least(end_of(one, to / snapshot_block), end);
        failed = read_run(one, next, bytes + (at - from), at, to);
    }
    uint64_t first = (from + snapshot_block - 1) / snapshot_block;
    for (uint64_t block = first; one->is_once && failed == 0 && block < one->blocks && end_of(one, block) <= end; block++)
        drop_block(one, block, bytes + (block * snapshot_block - from));
    return failed;
}

int read_snapshot(const connection *by, nbdkit_next *next, char *bytes, uint32_t count, uint64_t offset)
{
    int failed = 0;
    for (uint64_t at = offset, end = offset + count, to; at < end && failed == 0; at = to) {
        uint64_t block = at / snapshot_block;
        to = least(next_group(block) * snapshot_block, end);
        pthread_mutex_lock(lock_of(block));
        snapshot *one = read_by(by);
        failed = one == NULL ? ESHUTDOWN : read_group(one, next, bytes + (at - offset), at, to);
        if (read_by(by) == NULL) /* perhaps while it was read */
            failed = ESHUTDOWN;
        pthread_mutex_unlock(lock_of(block));
    }
    return failed;
}

/* Whether the extents say that a range of the backend reads as zeroes. `place` is where the search begins, and moves on. */
static bool is_hole(const struct nbdkit_extents *extents, size_t *place, uint64_t from, uint64_t to)
{
    for (; *place < nbdkit_extents_count(extents); ++*place) {
        const struct nbdkit_extent one = nbdkit_get_extent(extents, *place);
        if (one.offset + one.length > from && (one.type & NBDKIT_EXTENT_ZERO) == 0)
            return false;
        if (one.offset + one.length >= to)
            return true;
    }
    return false;
}

/* The type of a block's extent: an unchanged block is a hole whose bytes aren't told. */
static int type_of(const connection *by, uint64_t block, bool is_hole, uint32_t *type)
{
    pthread_mutex_lock(lock_of(block));
    const snapshot *one = read_by(by);
    if (one != NULL && is_unchanged(one, block))
        *type = NBDKIT_EXTENT_HOLE;
    else
        *type = one != NULL && is_hole && is_in_backend(one, block) ? NBDKIT_EXTENT_HOLE | NBDKIT_EXTENT_ZERO : 0;
    pthread_mutex_unlock(lock_of(block));
    return one == NULL ? ESHUTDOWN : 0;
}

/* The backend is asked first: a block that is still in it afterwards was there when it was asked. Blocks are told whole. */
int extents_of_snapshot(const connection *by, nbdkit_next *next, uint32_t count, uint64_t offset, struct nbdkit_extents *extents)
{
    uint64_t size = (uint64_t)next->get_size(next), first = offset / snapshot_block, last = (offset + count - 1) / snapshot_block;
    uint64_t from = first * snapshot_block, end = least(least((last + 1) * snapshot_block, size), from + MOST_ASKED), known = from;
    struct nbdkit_extents *found = nbdkit_extents_new(from, end);
    size_t place = 0;
    int failed = found == NULL ? ENOMEM : 0;
    begin_call();
    if (failed == 0 && next->extents(next, (uint32_t)(end - from), from, 0, found, &failed) != 0 && failed == 0)
        failed = EIO;
    end_call();
    for (size_t i = 0; failed == 0 && i < nbdkit_extents_count(found); i++)
        known += nbdkit_get_extent(found, i).length;
    for (uint64_t at = from, to; failed == 0 && at < end && (at == from || at < known); at = to) {
        uint32_t type = 0;
        to = least(at + snapshot_block, size);
        failed = type_of(by, at / snapshot_block, is_hole(found, &place, at, to), &type);
        if (failed == 0 && nbdkit_add_extent(extents, at, to - at, type) != 0)
            failed = errno != 0 ? errno : EIO;
    }
    if (found != NULL)
        nbdkit_extents_free(found);
    return failed;
}
