/* Snapshots begin and end. A line of the control prepares a snapshot; its keeper, the first connection to its export, comes; a line takes it under a freeze;
 * and it ends by a line, with its controller or its keeper, at its age, or when it breaks. */
#include "snapshot.h"
#include <errno.h>
#include <fcntl.h>
#include <inttypes.h>
#include <limits.h>
#include <stdlib.h>
#include <string.h>
#include <sys/random.h>
#include <unistd.h>

static char *folder; /* of overlays; NULL: the default */
static uint64_t oldest; /* nanoseconds that a snapshot may last; 0: no limit */

static background sweeper = NO_BACKGROUND;
static snapshot *prepared; /* that the control hasn't ended; NULL: none. Only the control's thread changes it, under the sweeper's lock */
static snapshot *ended;    /* those to be swept, under the lock */
static uint64_t taken;    /* the number of snapshots, */
static atomic_uint_fast64_t lost, kept; /* of those that broke, and of the blocks that were kept for those that have ended */

/* ---- Parameters ---- */

static int take_block(const char *key, const char *value)
{
    int64_t size = nbdkit_parse_size(value);
    if (size < 4096 || size > (1 << 20) || (size & (size - 1)) != 0)
        return size < 0 ? -1 : refuse(key, "has to be a power of two from 4k to 1M");
    snapshot_block = (uint32_t)size;
    return 0;
}

int configure_snapshots(const char *key, const char *name, const char *value)
{
    if (strcmp(name, "snapshot_dir") == 0) {
        free(folder);
        folder = nbdkit_absolute_path(value);
        return folder == NULL ? -1 : 0;
    }
    if (strcmp(name, "snapshot_max") == 0) {
        int64_t size = nbdkit_parse_size(value);
        snapshot_most = (uint64_t)size;
        return size < 0 ? -1 : 0;
    }
    if (strcmp(name, "snapshot_block") == 0)
        return take_block(key, value);
    return strcmp(name, "snapshot_age") == 0 ? parse_time(key, value, &oldest) : 1;
}

/* ---- The end of a snapshot's memory ---- */

/* Ends one of a snapshot's uses, under the lock. */
static void end_use(snapshot *one)
{
    if (one->ended_uses++ == 0) {
        one->after = ended;
        ended = one;
    }
    pthread_cond_signal(&sweeper.wakes);
}

void sweep_broken(snapshot *one)
{
    atomic_fetch_add(&lost, 1);
    pthread_mutex_lock(&sweeper.lock);
    one->uses++;
    end_use(one);
    pthread_mutex_unlock(&sweeper.lock);
}

static void release(snapshot *one)
{
    atomic_fetch_add(&kept, atomic_load(&one->kept));
    close(one->overlay);
    free(one->states);
    free(one->fresh);
    free(one->older);
    if (!one->is_passed_on)
        free(one->changed);
    free(one);
}

/* Frees the room of a snapshot that can't be read any more, so that neither a client nor the control waits for that. */
static void sweep(snapshot *one)
{
    pass_locks();
    if (ftruncate(one->overlay, 0) == 0)
        atomic_store(&one->used, 0);
}

/* Runs the sweeper until it is told to end and nothing is left to sweep. */
static void *sweep_all(void *nothing)
{
    pthread_mutex_lock(&sweeper.lock);
    for (;;) {
        while (ended == NULL && !sweeper.is_over)
            pthread_cond_wait(&sweeper.wakes, &sweeper.lock);
        snapshot *one = ended;
        if (one == NULL)
            break;
        ended = one->after;
        one->uses -= one->ended_uses;
        one->ended_uses = 0;
        bool is_last = one->uses == 0;
        pthread_mutex_unlock(&sweeper.lock);
        sweep(one);
        if (is_last)
            release(one);
        pthread_mutex_lock(&sweeper.lock);
    }
    pthread_mutex_unlock(&sweeper.lock);
    return nothing;
}

int start_sweeping(void) { return begin_background(&sweeper, sweep_all); }

void end_sweeping(void) { end_background(&sweeper); }

/* ---- The keeper, which blkqctl connects before the freeze. (A context of the filter's own has no export's name.) ---- */

/* Allocates all that the snapshot needs, since nothing is allocated under the freeze. Returns NULL, or a fault. */
static const char *keep(snapshot *one, connection *keeper)
{
    one->size = (uint64_t)keeper->next->get_size(keeper->next);
    one->blocks = (one->size + snapshot_block - 1) / snapshot_block;
    one->states = calloc(one->blocks / GROUP + 1, sizeof *one->states);
    one->fresh = one->is_tracked ? new_set(one->blocks) : NULL;
    if (one->states == NULL || (one->is_tracked && one->fresh == NULL) || ftruncate(one->overlay, (off_t)one->size) != 0)
        return strerror(errno);
    one->next = keeper->next;
    one->keeper = keeper;
    one->uses++;
    keeper->keeps = one;
    return NULL;
}

int join_snapshot(connection *joining)
{
    const char *fault = NULL;
    pthread_mutex_lock(&sweeper.lock);
    snapshot *one = prepared;
    joining->is_of_snapshot = one != NULL && one->export == joining->export;
    if (!joining->is_of_snapshot)
        fault = NULL; /* it is a freeze's export */
    else if (one->states == NULL)
        fault = keep(one, joining);
    else if (one->keeper == NULL)
        fault = "the snapshot is lost";
    else if (strcmp(joining->name, one->keeper->name) != 0 || (uint64_t)joining->next->get_size(joining->next) != one->size)
        fault = "the snapshot is of another export, or of another size";
    pthread_mutex_unlock(&sweeper.lock);
    return fault == NULL ? 0 : refuse("snapshot", fault);
}

void leave_snapshot(connection *leaving)
{
    snapshot *one = leaving->keeps;
    if (one == NULL)
        return;
    leaving->keeps = NULL;
    pthread_mutex_lock(&sweeper.lock);
    one->keeper = NULL;
    bool is_needed = prepared == one;
    pthread_mutex_unlock(&sweeper.lock);
    if (is_needed)
        break_snapshot(one, "its first connection has ended", 0);
    pass_locks(); /* nobody reads through it any more */
    pthread_mutex_lock(&sweeper.lock);
    end_use(one);
    pthread_mutex_unlock(&sweeper.lock);
}

/* ---- Lines of the control ---- */

static int open_overlay(void)
{
    char path[PATH_MAX];
    snprintf(path, sizeof path, "%s/blkq-XXXXXX", folder != NULL ? folder : "/var/tmp");
    int at = mkostemp(path, O_CLOEXEC);
    if (at >= 0)
        unlink(path);
    return at;
}

static void prepare(controller *from)
{
    char name[EXPORT_NAME], address[ADDRESS], text[sizeof name + sizeof address + 16];
    snapshot *one = calloc(1, sizeof *one);
    int overlay = prepared != NULL || one == NULL ? -1 : open_overlay();
    uint64_t export = overlay < 0 ? 0 : open_export(name), at = now();
    if (export == 0) {
        snprintf(text, sizeof text, "snapshot: %s", prepared != NULL ? "busy" : overlay < 0 ? strerror(errno) : "too many exports");
        say(from, text);
        if (overlay >= 0)
            close(overlay);
        free(one);
        return;
    }
    *one = (snapshot){.export = export, .overlay = overlay, .is_once = from->asked.is_once, .is_tracked = from->asked.is_tracked, .owner = from,
                      .who = from->who, .number = next_number(), .since = at, .ends_at = oldest == 0 ? UINT64_MAX : at + oldest, .uses = 1};
    pthread_mutex_lock(&sweeper.lock);
    prepared = one;
    pthread_mutex_unlock(&sweeper.lock);
    from->has_snapshot = true;
    tell_address(address, sizeof address);
    snprintf(text, sizeof text, "export %s %s", name, address);
    say(from, text);
}

/* Draws the name of a copy: 128 bits, in hexadecimal. */
static bool draw_id(char id[ID])
{
    unsigned char drawn[ID / 2];
    bool is_drawn = getrandom(drawn, sizeof drawn, 0) == sizeof drawn;
    for (size_t i = 0; is_drawn && i < sizeof drawn; i++)
        sprintf(id + 2 * i, "%02x", drawn[i]);
    return is_drawn;
}

/* Takes the snapshot unless its keeper has gone. Call it while no request runs: the lock holds the keeper until it is taken. */
static bool take_if_kept(snapshot *one, const char *since)
{
    pthread_mutex_lock(&sweeper.lock);
    bool is_kept = one->keeper != NULL;
    if (is_kept && one->is_tracked)
        begin_changes(one, since);
    if (is_kept)
        take_snapshot(one);
    pthread_mutex_unlock(&sweeper.lock);
    return is_kept;
}

static void take(controller *from)
{
    char why[REASON], text[REASON + 16];
    snapshot *one = prepared;
    if (last_hold(from) == 0 || !freeze_queue_waits_is_drained(&blkq.waits)) {
        say(from, "not frozen");
    } else if (has_broken(one, why)) {
        snprintf(text, sizeof text, "snapshot: %s", why);
        say(from, text);
    } else if (one->is_taken || !draw_id(one->id) || !take_if_kept(one, from->asked.since)) {
        say(from, one->is_taken ? "snapshot: taken" : "snapshot: no connection to its export");
    } else {
        one->is_taken = true;
        one->since = now();
        taken++;
        note("snapshot %" PRIu64 ": taken, " WHO, one->number, WHOSE(one->who));
        snprintf(text, sizeof text, one->is_tracked ? "ok %s %s" : "ok", one->id, one->is_incremental ? "changes" : "all");
        say(from, text);
    }
}

/* Ends the snapshot that is prepared, and can't be read any more. */
static void end_snapshot(bool is_whole, const char *why)
{
    snapshot *one = prepared;
    close_export(one->export);
    if (one->is_taken && one->is_tracked)
        end_changes(one, is_whole);
    note("snapshot %" PRIu64 ": ended by %s, after %.3f s, " WHO, one->number, why, seconds_since(one->since), WHOSE(one->who));
    one->owner->has_snapshot = false;
    pthread_mutex_lock(&sweeper.lock);
    prepared = NULL;
    end_use(one);
    pthread_mutex_unlock(&sweeper.lock);
}

static void end(controller *from)
{
    char why[REASON], text[REASON + 64];
    snapshot *one = prepared;
    bool is_whole = end_reading(one), has_reason = has_broken(one, why);
    if (is_whole)
        snprintf(text, sizeof text, "snapshot kept %" PRIuFAST64 " peak %" PRIuFAST64, atomic_load(&one->kept), atomic_load(&one->peak));
    else
        snprintf(text, sizeof text, "lost %s", has_reason ? why : "it was never taken");
    end_snapshot(is_whole && from->asked.is_whole, "its owner");
    say(from, text);
}

static void run_snapshot(controller *from)
{
    if (from->asked.step == PREPARE)
        prepare(from);
    else if (!from->has_snapshot)
        say(from, "no snapshot");
    else if (from->asked.step == TAKE)
        take(from);
    else
        end(from);
}

static void forget(const controller *from)
{
    if (!from->has_snapshot)
        return;
    end_reading(prepared);
    end_snapshot(false, "its connection's end");
}

/* Breaks a snapshot that is too old. Returns when the next one will be; UINT64_MAX: there is none. */
static uint64_t end_old(uint64_t at)
{
    char why[REASON];
    if (prepared == NULL || prepared->ends_at > at)
        return prepared == NULL ? UINT64_MAX : prepared->ends_at;
    prepared->ends_at = UINT64_MAX;
    snprintf(why, sizeof why, "it was older than %.9g s (blkq-snapshot-age)", (double)oldest / 1e9);
    break_snapshot(prepared, why, 0);
    return UINT64_MAX;
}

static void list(FILE *file)
{
    const snapshot *one = prepared;
    if (one != NULL)
        list_holder(file, one->number, "snapshot", one->is_taken ? "taken" : "prepared", one->since, &one->who, one->ends_at);
}

static snapshot_counts count(void)
{
    snapshot *one = prepared;
    bool is_taken = one != NULL && one->is_taken;
    return (snapshot_counts){.taken = taken, .lost = atomic_load(&lost), .kept = atomic_load(&kept) + (is_taken ? atomic_load(&one->kept) : 0),
                             .bytes = is_taken ? atomic_load(&one->used) : 0, .seconds = is_taken ? seconds_since(one->since) : 0};
}

static uint64_t its_export(void) { return prepared->export; }

const snapshots of_filter = {.run = run_snapshot, .forget = forget, .end_old = end_old, .list = list, .count = count,
                              .export = its_export};

void unload_snapshots(void) { free(folder); }
