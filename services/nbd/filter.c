/* nbdkit-blkq-filter: the queue before any backend of nbdkit. Each request passes the queue (request.c), and its pieces go
 * to the backend; a quiesce flushes the backend while the queue is drained. */
#include "connections.h"
#include "snapshot.h"
#include <errno.h>
#include <stdlib.h>
#include <string.h>

#if NBDKIT_FILTER_API_VERSION != 6
#error "nbdkit-filter.h's API version isn't 6: read its changes first"
#endif

/* ---- The server comes and goes ---- */

/* A parameter of the queue is blkq- and its name, with - for _. */
static int filter_config(nbdkit_next_config *next, nbdkit_backend *nxdata, const char *key, const char *value)
{
    static const char prefix[] = "blkq-";
    char name[32] = "";
    if (strncmp(key, prefix, sizeof prefix - 1) != 0)
        return next(nxdata, key, value);
    strncpy(name, key + sizeof prefix - 1, sizeof name - 1);
    for (char *at = name; *at != '\0'; at++)
        if (*at == '-')
            *at = '_';
    int taken = configure_snapshots(key, name, value);
    return taken > 0 ? configure_queue(key, name, value) : taken;
}

static const char help[] =
    "blkq-control=PATH           a Unix socket for blkqctl\n"
    "blkq-control-group=GROUP, blkq-control-mode=MODE    who may connect to it\n"
    "blkq-control-fd=N           instead of PATH, a socket that already listens\n"
    "blkq-max-sectors=N          the longest piece of a request; 0: blkq-hardware-sectors (0)\n"
    "blkq-chunk-sectors=N        no piece crosses a multiple of N; 0: no chunks (0)\n"
    "blkq-physical-sectors=N     requests are cut where a physical block ends, if possible; a power of two (1)\n"
    "blkq-hardware-sectors=N     the greatest value of max_sectors (65535)\n"
    "blkq-slots=N                counters for requests, 1 to 512 (the processors)\n"
    "blkq-tags=N                 maximum number of requests in flight, 1 to 1023 (63)\n"
    "blkq-drain-timeout=S        a drain or a flush that takes longer is given up\n"
    "blkq-max-hold=S             a freeze ends at the latest S seconds after its drain (a quiesce: after its flush)\n"
    "blkq-name=NAME              the disk in metrics and in the journal\n"
    "blkq-audit=journal          notes freezes, thaws, settings and refusals\n"
    "blkq-snapshot-dir=DIR       where a live copy keeps what clients overwrite (/var/tmp)\n"
    "blkq-snapshot-max=SIZE      maximum size of what is kept there (1G)\n"
    "blkq-snapshot-block=SIZE    what is kept at once: a power of two from 4k to 1M (16k)\n"
    "blkq-snapshot-age=S         a live copy is given up S seconds after its beginning\n"
    "blkq-nowait=true            a request to a frozen queue is refused";

static int filter_get_ready(int thread_model)
{
    is_serial = thread_model != NBDKIT_THREAD_MODEL_PARALLEL;
    blkq.flush = flush_backend;
    blkq.exports = true;
    make_snapshot_locks();
    if (thread_model > NBDKIT_THREAD_MODEL_SERIALIZE_CONNECTIONS) /* else no connection comes beside a client's */
        blkq.snapshots = &of_filter;
    return make_queue();
}

static int filter_after_fork(nbdkit_backend *backend)
{
    (void)backend;
    int failed = start_sweeping();
    return failed == 0 ? start_threads() : refuse("thread", strerror(failed));
}

static void filter_cleanup(nbdkit_backend *backend)
{
    (void)backend;
    end_queue();
    end_sweeping();
}

static void filter_unload(void)
{
    unload_queue();
    unload_snapshots();
}

/* ---- A client comes and goes ---- */

static void *filter_open(nbdkit_next_open *next, nbdkit_context *context, int readonly, const char *name, int is_tls)
{
    (void)is_tls;
    connection *opened = calloc(1, sizeof *opened);
    if (opened == NULL) {
        refuse("open", strerror(errno));
        return NULL;
    }
    if (is_export_name(name) && ((opened->export = find_export(name, &name)) == 0 || (opened->name = strdup(name)) == NULL)) {
        refuse("blkq", opened->export == 0 ? "no current freeze has an export of this name" : strerror(errno));
        free(opened);
        return NULL;
    }
    begin_call();
    int failed = next(context, readonly || opened->export != 0, name); /* nbdkit refuses writes on a read-only connection */
    end_call();
    if (failed != 0) {
        free(opened->name);
        free(opened);
        return NULL;
    }
    pthread_mutex_init(&opened->flushing, NULL);
    return opened;
}

/* Asks the backend everything that requests and a quiesce need, so that nbdkit doesn't have to ask it later. */
static int filter_prepare(nbdkit_next *next, void *handle, int readonly)
{
    connection *opened = handle;
    uint32_t preferred, maximum;
    (void)readonly;
    int writes = next->can_write(next), flushes = next->can_flush(next), fua = next->can_fua(next);
    int sized = next->block_size(next, &opened->minimum, &preferred, &maximum), are_alike = next->can_multi_conn(next);
    int64_t size = next->get_size(next);
    if (size < 0 || writes < 0 || flushes < 0 || fua < 0 || sized < 0 || are_alike < 0)
        return -1;
    opened->next = next;
    opened->fua = fua;
    opened->flushes = writes && flushes;
    if (opened->minimum == 0)
        opened->minimum = 1;
    if (opened->export == 0) { /* an export writes nothing that a quiesce could flush */
        list_connection(opened);
        return 0;
    }
    note_export(opened->export, (uint64_t)size, are_alike);
    return join_snapshot(opened);
}

/* Flushes before the connection goes, since no later quiesce may reach its writes. */
static int filter_finalize(nbdkit_next *next, void *handle)
{
    connection *leaving = handle;
    (void)next;
    int failed = flush_connection(leaving, true);
    leave_snapshot(leaving);
    unlist_connection(leaving);
    return failed == 0 ? 0 : -1;
}

/* nbdkit doesn't finalize a connection that is lost while it is made. */
static void filter_close(void *handle)
{
    connection *closed = handle;
    leave_snapshot(closed);
    unlist_connection(closed);
    pthread_mutex_destroy(&closed->flushing);
    free(closed->name);
    free(closed);
}

/* The backend's block sizes; the preferred one is the queue's physical block if that is larger. */
static int filter_block_size(nbdkit_next *next, void *handle, uint32_t *minimum, uint32_t *preferred, uint32_t *maximum)
{
    freeze_queue_limits limits;
    (void)handle;
    if (next->block_size(next, minimum, preferred, maximum) != 0)
        return -1;
    if (freeze_queue_waits_limits(&blkq.waits, &limits) != FREEZE_QUEUE_OK)
        return refuse("queue", "has no limits");
    uint32_t physical = limits.physical * SECTOR;
    if (physical == SECTOR)
        return 0;
    if (*minimum == 0) {
        *minimum = 1;
        *maximum = UINT32_MAX;
    }
    if (physical > *preferred && physical <= *maximum)
        *preferred = physical;
    return 0;
}

/* ---- Requests ---- */

/* A request's way to the backend. */
typedef struct passage {
    connection *from;
    nbdkit_next *next;
    struct nbdkit_extents *extents;
} passage;

/* If the backend writes through itself, each piece has to. If nbdkit flushes after a write instead, only the last piece asks for
 * that, since the flush covers all pieces before it. */
static uint32_t flags_of(const request *wanted, bool is_last)
{
    const passage *by = wanted->backend;
    bool flushes_behind = by->from->fua == NBDKIT_FUA_EMULATE;
    return flushes_behind && !is_last ? wanted->flags & ~(uint32_t)NBDKIT_FLAG_FUA : wanted->flags;
}

static int call(const request *wanted, uint64_t offset, uint32_t count, uint32_t flags, int *failed)
{
    const passage *by = wanted->backend;
    nbdkit_next *next = by->next;
    char *bytes = wanted->bytes;
    size_t done = offset - wanted->offset;
    switch (wanted->operation) {
    case READ: return next->pread(next, bytes + done, count, offset, flags, failed);
    case WRITE: return next->pwrite(next, bytes + done, count, offset, flags, failed);
    case TRIM: return next->trim(next, count, offset, flags, failed);
    case ZERO: return next->zero(next, count, offset, flags, failed);
    case CACHE: return next->cache(next, count, offset, flags, failed);
    case EXTENTS: return next->extents(next, count, offset, flags, by->extents, failed);
    default: return next->flush(next, flags, failed);
    }
}

static int do_piece(const request *wanted, uint64_t offset, uint32_t count, bool is_last)
{
    const passage *by = wanted->backend;
    int failed = 0;
    bool writes = wanted->operation == WRITE || wanted->operation == TRIM || wanted->operation == ZERO;
    bool was_written = wanted->operation == FLUSH && atomic_exchange(&by->from->is_written, false);
    if (writes)
        change(offset, count);
    begin_call();
    bool done = call(wanted, offset, count, flags_of(wanted, is_last), &failed) == 0;
    end_call();
    if (wanted->operation == FLUSH && !done)
        atomic_store(&blkq.flush_lost, true);
    if ((writes || (was_written && !done)) && !atomic_load(&by->from->is_written))
        atomic_store(&by->from->is_written, true);
    return done ? 0 : failed != 0 ? failed : EIO;
}

/* The bytes that a request to an export has told: those that were read, or are known to be zeroes, or unchanged since the copy before. */
static uint64_t told_by(const request *wanted)
{
    const passage *by = wanted->backend;
    uint64_t told = wanted->operation == READ ? wanted->count : 0, end = wanted->offset + wanted->count;
    for (size_t i = 0; wanted->operation == EXTENTS && i < nbdkit_extents_count(by->extents); i++) {
        const struct nbdkit_extent one = nbdkit_get_extent(by->extents, i);
        uint64_t to = one.offset + one.length < end ? one.offset + one.length : end;
        bool is_told = (one.type & NBDKIT_EXTENT_ZERO) != 0 || (by->from->is_of_snapshot && one.type == NBDKIT_EXTENT_HOLE);
        told += is_told && one.offset < to ? to - one.offset : 0;
    }
    return told;
}

/* Calls the backend, or reads the snapshot, for a connection to an export: 0, or an errno. */
static int call_past(const request *wanted)
{
    const passage *by = wanted->backend;
    int failed = 0;
    if (by->from->is_of_snapshot && wanted->operation == READ)
        return read_snapshot(by->from, by->next, wanted->bytes, wanted->count, wanted->offset);
    if (by->from->is_of_snapshot && wanted->operation == EXTENTS)
        return extents_of_snapshot(by->from, by->next, wanted->count, wanted->offset, by->extents);
    begin_call();
    bool done = call(wanted, wanted->offset, wanted->count, wanted->flags, &failed) == 0;
    end_call();
    return done ? 0 : failed != 0 ? failed : EIO;
}

/* Reads the backend or a snapshot, bypassing the queue: 0, or an errno. A read during which the freeze or the snapshot ended fails. */
static int read_past(const request *wanted)
{
    const passage *by = wanted->backend;
    int failed = call_past(wanted);
    if (!is_export_open(by->from->export))
        return ESHUTDOWN;
    if (failed == 0)
        count_export(by->from->export, told_by(wanted));
    return failed;
}

/* Serves a request, and returns what nbdkit expects. */
static int pass(passage by, operation operation, void *bytes, uint32_t count, uint64_t offset, uint32_t flags, int *failed)
{
    const request wanted = {.operation = operation, .flags = flags, .count = count, .offset = offset, .minimum = by.from->minimum,
                            .is_whole = (flags & NBDKIT_FLAG_FAST_ZERO) != 0, .do_piece = do_piece, .bytes = bytes, .backend = &by};
    *failed = by.from->export != 0 ? read_past(&wanted) : serve(&wanted);
    if (*failed == 0)
        return 0;
    log_failure(&wanted, *failed, by.from->export != 0);
    return -1;
}

static int filter_pread(nbdkit_next *next, void *handle, void *bytes, uint32_t count, uint64_t offset, uint32_t flags,
                        int *failed)
{
    return pass((passage){.from = handle, .next = next}, READ, bytes, count, offset, flags, failed);
}

/* The bytes of a write are only read. */
static int filter_pwrite(nbdkit_next *next, void *handle, const void *bytes, uint32_t count, uint64_t offset,
                         uint32_t flags, int *failed)
{
    return pass((passage){.from = handle, .next = next}, WRITE, (void *)(uintptr_t)bytes, count, offset, flags, failed);
}

static int filter_trim(nbdkit_next *next, void *handle, uint32_t count, uint64_t offset, uint32_t flags, int *failed)
{
    return pass((passage){.from = handle, .next = next}, TRIM, NULL, count, offset, flags, failed);
}

static int filter_zero(nbdkit_next *next, void *handle, uint32_t count, uint64_t offset, uint32_t flags, int *failed)
{
    return pass((passage){.from = handle, .next = next}, ZERO, NULL, count, offset, flags, failed);
}

static int filter_cache(nbdkit_next *next, void *handle, uint32_t count, uint64_t offset, uint32_t flags, int *failed)
{
    return pass((passage){.from = handle, .next = next}, CACHE, NULL, count, offset, flags, failed);
}

static int filter_extents(nbdkit_next *next, void *handle, uint32_t count, uint64_t offset, uint32_t flags,
                          struct nbdkit_extents *extents, int *failed)
{
    return pass((passage){.from = handle, .next = next, .extents = extents}, EXTENTS, NULL, count, offset, flags, failed);
}

static int filter_flush(nbdkit_next *next, void *handle, uint32_t flags, int *failed)
{
    return pass((passage){.from = handle, .next = next}, FLUSH, NULL, 0, 0, flags, failed);
}

static struct nbdkit_filter filter = {
    .name = "blkq",
    .longname = "a queue whose limits change, and which can be frozen",
    .description = "Limits that change under load, and freezes for consistent copies, before any backend.",
    .config = filter_config,
    .config_help = help,
    .get_ready = filter_get_ready,
    .after_fork = filter_after_fork,
    .cleanup = filter_cleanup,
    .unload = filter_unload,
    .open = filter_open,
    .prepare = filter_prepare,
    .finalize = filter_finalize,
    .close = filter_close,
    .block_size = filter_block_size,
    .pread = filter_pread,
    .pwrite = filter_pwrite,
    .trim = filter_trim,
    .zero = filter_zero,
    .cache = filter_cache,
    .extents = filter_extents,
    .flush = filter_flush,
};

NBDKIT_REGISTER_FILTER(filter)
