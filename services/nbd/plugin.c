/* nbdkit-blkq-plugin: a disk in memory behind the queue, to try the queue without a backend. */
#define NBDKIT_API_VERSION 2
#include "service.h"
#include <errno.h>
#include <nbdkit-plugin.h>
#include <stdlib.h>
#include <string.h>
#include <sys/mman.h>

#define THREAD_MODEL NBDKIT_THREAD_MODEL_PARALLEL

static struct {
    uint8_t *bytes;
    uint64_t size;    /* bytes, of whole sectors */
    uint32_t latency; /* extra microseconds for each piece, to imitate a device */
} disk = {.size = 64 * 1024 * 1024};

/* ---- The command line ---- */

static int parse_size(const char *text)
{
    int64_t bytes = nbdkit_parse_size(text);
    if (bytes < 0)
        return -1;
    if (bytes < SECTOR || bytes % SECTOR != 0 || bytes / SECTOR > (int64_t)1 << 33)
        return refuse("size", "has to be 1 to 2^33 sectors of 512 bytes");
    disk.size = (uint64_t)bytes;
    return 0;
}

static int plugin_config(const char *key, const char *value)
{
    if (strcmp(key, "size") == 0)
        return parse_size(value);
    if (strcmp(key, "latency_microseconds") == 0)
        return nbdkit_parse_uint32_t(key, value, &disk.latency);
    return configure_queue(key, key, value);
}

static const char help[] =
    "size=SIZE                 size of the disk, in bytes (64M)\n"
    "hardware_sectors=N        the greatest value of max_sectors (65535)\n"
    "max_sectors=N             the longest piece of a request; 0: hardware_sectors (0)\n"
    "chunk_sectors=N           no piece crosses a multiple of N; 0: no chunks (0)\n"
    "physical_sectors=N        requests are cut where a physical block ends, if possible; a power of two (1)\n"
    "slots=N                   counters for requests, 1 to 512 (the processors)\n"
    "tags=N                    maximum number of requests in flight, 1 to 1023 (63)\n"
    "latency_microseconds=N    extra time for each piece, to imitate a device (0)\n"
    "control=PATH              a Unix socket for blkqctl\n"
    "drain_timeout=S, max_hold=S, name=NAME, audit=journal    as the filter's\n"
    "control_group=GROUP, control_mode=MODE, control_fd=N     as the filter's\n"
    "nowait=true               a request to a frozen queue is refused";

/* ---- The server comes and goes ---- */

static int plugin_get_ready(void)
{
    int flags = MAP_PRIVATE | MAP_ANONYMOUS | MAP_NORESERVE;
    disk.bytes = mmap(NULL, disk.size, PROT_READ | PROT_WRITE, flags, -1, 0);
    if (disk.bytes == MAP_FAILED)
        return refuse("size", strerror(errno));
    return make_queue();
}

static void plugin_cleanup(void)
{
    end_queue();
    munmap(disk.bytes, disk.size);
}

/* ---- For a client ---- */

static void *plugin_open(int readonly)
{
    (void)readonly;
    return NBDKIT_HANDLE_NOT_NEEDED;
}

static int64_t plugin_get_size(void *handle)
{
    (void)handle;
    return (int64_t)disk.size;
}

/* In bytes: a sector, the physical block in force, and the maximum length of a request in a script. */
static int plugin_block_size(void *handle, uint32_t *minimum, uint32_t *preferred, uint32_t *maximum)
{
    freeze_queue_limits limits;
    (void)handle;
    if (freeze_queue_waits_limits(&blkq.waits, &limits) != FREEZE_QUEUE_OK)
        return refuse("queue", "has no limits");
    *minimum = SECTOR;
    *preferred = limits.physical * SECTOR;
    *maximum = MOST_COUNT * SECTOR;
    return 0;
}

/* Each connection sees the writes of the others without a flush. */
static int plugin_can_multi_conn(void *handle)
{
    (void)handle;
    return 1;
}

static int plugin_can_fua(void *handle)
{
    (void)handle;
    return NBDKIT_FUA_NATIVE;
}

/* ---- Requests ---- */

/* Takes extra time for a piece, to imitate a device. */
static void pass_latency(void)
{
    const struct timespec length = {disk.latency / 1000000, (long)(disk.latency % 1000000) * 1000};
    if (disk.latency > 0)
        nanosleep(&length, NULL);
}

static int do_piece(const request *wanted, uint64_t offset, uint32_t count, bool is_last)
{
    uint8_t *here = disk.bytes + offset, *theirs = wanted->bytes;
    size_t done = offset - wanted->offset;
    (void)is_last;
    if (wanted->operation == READ)
        memcpy(theirs + done, here, count);
    else if (wanted->operation == WRITE)
        memcpy(here, theirs + done, count);
    else
        memset(here, 0, count);
    pass_latency();
    return 0;
}

static int do_bytes(operation operation, void *bytes, uint32_t count, uint64_t offset)
{
    const request wanted = {.operation = operation, .count = count, .offset = offset, .minimum = SECTOR,
                            .do_piece = do_piece, .bytes = bytes};
    int refused = EINVAL;
    if (count % SECTOR == 0 && offset % SECTOR == 0)
        refused = serve(&wanted);
    if (refused == 0)
        return 0;
    log_failure(&wanted, refused, false);
    nbdkit_set_error(refused);
    return -1;
}

static int plugin_pread(void *handle, void *bytes, uint32_t count, uint64_t offset, uint32_t flags)
{
    (void)handle, (void)flags;
    return do_bytes(READ, bytes, count, offset);
}

/* The bytes of a write are only read. */
static int plugin_pwrite(void *handle, const void *bytes, uint32_t count, uint64_t offset, uint32_t flags)
{
    (void)handle, (void)flags;
    return do_bytes(WRITE, (void *)(uintptr_t)bytes, count, offset);
}

static int plugin_zero(void *handle, uint32_t count, uint64_t offset, uint32_t flags)
{
    (void)handle, (void)flags;
    return do_bytes(ZERO, NULL, count, offset);
}

static int plugin_trim(void *handle, uint32_t count, uint64_t offset, uint32_t flags)
{
    (void)handle, (void)flags;
    return do_bytes(TRIM, NULL, count, offset);
}

/* There is nothing to flush: no write can be lost. */
static int plugin_flush(void *handle, uint32_t flags)
{
    (void)handle, (void)flags;
    return 0;
}

static struct nbdkit_plugin plugin = {
    .name = "blkq",
    .longname = "a disk in memory behind a queue that can be frozen",
    .description = "A disk in memory, served through a queue whose limits change while clients read and write.",
    .config = plugin_config,
    .config_help = help,
    .get_ready = plugin_get_ready,
    .after_fork = start_threads,
    .cleanup = plugin_cleanup,
    .unload = unload_queue,
    .open = plugin_open,
    .get_size = plugin_get_size,
    .block_size = plugin_block_size,
    .can_multi_conn = plugin_can_multi_conn,
    .can_fua = plugin_can_fua,
    .pread = plugin_pread,
    .pwrite = plugin_pwrite,
    .trim = plugin_trim,
    .zero = plugin_zero,
    .flush = plugin_flush,
};

NBDKIT_REGISTER_PLUGIN(plugin)
