/* A snapshot of the backend: taken while the queue is drained, and read through an export while clients write. snapshot.c has its bytes, snapshots.c
 * its beginning and its end, changes.c what has changed since the copy before. */
#ifndef SNAPSHOT_H
#define SNAPSHOT_H

#include "connections.h"

enum { REASON = 192, ID = 33 /* bytes of a reason and of an id, with their ends */ };
enum { GROUP = 16 /* blocks that one lock guards; their states are one word */ };

/* A bit for each block. */
typedef struct block_set {
    uint64_t blocks;
    atomic_uint_fast64_t words[];
} block_set;

/* What no comment says otherwise of is set before the snapshot is taken, and doesn't change then. */
typedef struct snapshot {
    uint64_t export;        /* its number */
    nbdkit_next *next;      /* of the keeper, through which blocks are read that a client is about to change */
    uint64_t size, blocks;  /* of the disk: bytes, and blocks of snapshot_block bytes */
    uint32_t *states;       /* two bits for each block, under the lock of its group */
    int overlay;            /* a sparse file without a name, in which each block has its place on the disk */
    atomic_uint_fast64_t used, peak, kept; /* bytes in the overlay, now and at most; blocks that were put there */
    bool is_once;           /* the copier reads each block once: what it has read isn't kept any longer */
    bool is_tracked;        /* changes after it are noted, */
    block_set *fresh;       /* here, until the snapshot is taken */
    block_set *changed, *older; /* what had changed since the copy before, in two parts; NULL: nothing, or that isn't known */
    bool is_incremental;    /* the copier reads nothing but that */
    bool is_passed_on;      /* changed is kept for the next snapshot */
    char id[ID];            /* the name of its copy, if that one is whole */
    char why[REASON];          /* under the lock of reasons: why it can't be read any more; "": it can */
    /* Changed by the control's thread alone, and read by it. */
    controller *owner;
    who who;
    bool is_taken;
    uint64_t number, since, ends_at; /* in nanoseconds; UINT64_MAX: no time limit */
    /* Under the lock of snapshots.c. */
    const struct connection *keeper; /* the first connection to the export; NULL: it hasn't come yet, or has gone */
    unsigned uses, ended_uses; /* the control, the keeper, the sweep after it broke; those that the next sweep ends */
    struct snapshot *after;    /* in the list of those to be swept */
} snapshot;

/* ---- snapshot.c ---- */

extern uint32_t snapshot_block; /* bytes */
extern uint64_t snapshot_most;  /* bytes of the overlay */

void make_snapshot_locks(void);

/* A copier may read a snapshot from now on, and clients keep what they change. The queue has to be drained. */
void take_snapshot(snapshot *one);

/* Ends the reading of a snapshot. Returns whether it could still be read. */
bool end_reading(snapshot *one);

/* Ends a snapshot that can't be kept, for a reason and an errno, or 0. Clients go on. */
void break_snapshot(snapshot *one, const char *what, int failed);

/* Whether a snapshot can't be read any more for a reason, and the reason. */
bool has_broken(snapshot *one, char why[REASON]);

/* Returns once no thread is at work on a snapshot that can't be read any more. */
void pass_locks(void);

/* Called by each request under its tag, before it changes these bytes. */
void change(uint64_t offset, uint32_t count);

/* Read the snapshot for a connection to its export, and tell which parts of it are zeroes: 0, or an errno. */
int read_snapshot(const connection *by, nbdkit_next *next, char *bytes, uint32_t count, uint64_t offset);
int extents_of_snapshot(const connection *by, nbdkit_next *next, uint32_t count, uint64_t offset, struct nbdkit_extents *extents);

/* ---- snapshots.c ---- */

/* Takes a parameter by its name. 1: there is no such parameter; -1: refused, and the reason is logged. */
int configure_snapshots(const char *key, const char *name, const char *value);
void unload_snapshots(void);

extern const snapshots of_filter;

/* Start the thread that sweeps: 0, or an errno; end it, once no connection and no controller is left. */
int start_sweeping(void);
void end_sweeping(void);

/* Asks the sweeper to free the room of a snapshot that has just broken. */
void sweep_broken(snapshot *one);

/* Call these as a connection to an export opens and closes. The first returns 0, or -1 with the reason logged. */
int join_snapshot(connection *joining);
void leave_snapshot(connection *leaving);

/* ---- changes.c ---- */

block_set *new_set(uint64_t blocks);
bool is_in(const block_set *set, uint64_t block);

/* Notes that bytes are about to change. Called under a tag. */
void note_change(uint64_t offset, uint32_t count);

/* Starts a new set of changes as a tracked snapshot is taken; the snapshot gets the old set. Call it while the queue is drained. */
void begin_changes(snapshot *one, const char *since);

/* Ends the tracking of a snapshot once its copier has ended: forgets the changes up to it if the copy is whole, and keeps them otherwise. */
void end_changes(snapshot *one, bool is_whole);

#endif
