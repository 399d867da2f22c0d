/* The blocks that have changed since the last copy, so that the next one reads only these. */
#include "snapshot.h"
#include <stdlib.h>
#include <string.h>

enum { BITS = 64 };

/* Requests read `since` under their tags, and it is replaced only while the queue is drained: each change is noted on one side of a snapshot. */
static struct {
    block_set *_Atomic since; /* what has changed since the last snapshot that was tracked; NULL: none was */
    block_set *before;        /* what had changed from the copy `id` up to that snapshot, if the snapshot's own copy isn't whole; else NULL */
    char id[ID];              /* of the last copy that is whole; "": there is none */
} changes;

block_set *new_set(uint64_t blocks)
{
    block_set *made = calloc(1, sizeof *made + (blocks + BITS - 1) / BITS * sizeof *made->words);
    if (made != NULL)
        made->blocks = blocks;
    return made;
}

bool is_in(const block_set *set, uint64_t block)
{
    return set != NULL && (atomic_load_explicit(&set->words[block / BITS], memory_order_relaxed) >> block % BITS & 1) != 0;
}

void note_change(uint64_t offset, uint32_t count)
{
    block_set *set = atomic_load_explicit(&changes.since, memory_order_acquire);
    if (set == NULL || count == 0)
        return;
    uint64_t last = (offset + count - 1) / snapshot_block;
    for (uint64_t block = offset / snapshot_block; block <= last && block < set->blocks; block++)
        if (!is_in(set, block))
            atomic_fetch_or_explicit(&set->words[block / BITS], UINT64_C(1) << block % BITS, memory_order_relaxed);
}

void begin_changes(snapshot *one, const char *since)
{
    block_set *so_far = atomic_load(&changes.since);
    if (so_far == NULL || so_far->blocks != one->blocks) /* the first, or the disk has another size */
        changes.id[0] = '\0';
    one->is_incremental = changes.id[0] != '\0' && strcmp(changes.id, since) == 0;
    one->changed = so_far;
    one->older = changes.before;
    changes.before = NULL;
    atomic_store(&changes.since, one->fresh);
    one->fresh = NULL;
}

/* Frees no set: a thread may look at one until the snapshot is swept. */
void end_changes(snapshot *one, bool is_whole)
{
    if (is_whole)
        strcpy(changes.id, one->id);
    if (is_whole || changes.id[0] == '\0')
        return;
    for (uint64_t at = 0; one->older != NULL && at < (one->blocks + BITS - 1) / BITS; at++)
        atomic_fetch_or_explicit(&one->changed->words[at], atomic_load(&one->older->words[at]), memory_order_relaxed);
    changes.before = one->changed;
    one->is_passed_on = true;
}
