/* The counts of all tags added up: the line of `stat`, and metrics in the text format of OpenMetrics. */
#include "service.h"
#include <inttypes.h>
#include <stdio.h>
#include <stdlib.h>
#include <string.h>

const char *const operations[OPERATIONS] = {"read", "write", "trim", "zero", "cache", "extents", "flush"};

/* ---- Sums ---- */

/* The sum over all tags of the count at this offset in a tag's counts. */
static uint64_t sum_at(size_t offset)
{
    uint64_t sum = 0;
    for (uint32_t tag = 0; tag < blkq.tags; tag++) {
        const char *counts = (const char *)&blkq.counts[tag];
        sum += atomic_load_explicit((const atomic_uint_fast64_t *)(const void *)(counts + offset), memory_order_relaxed);
    }
    return sum;
}

static size_t place_of(uint32_t operation) { return offsetof(counts, of) + operation * sizeof(operation_counts); }

static size_t latency_of(uint32_t operation) { return place_of(operation) + offsetof(operation_counts, latency); }
static size_t waiting_of(uint32_t operation) { return place_of(operation) + offsetof(operation_counts, waiting); }

static size_t bucket_of(uint32_t place) { return offsetof(histogram, buckets) + place * sizeof(atomic_uint_fast64_t); }

/* The number of durations in the histogram at an offset. */
static uint64_t count_at(size_t offset)
{
    uint64_t count = 0;
    for (uint32_t place = 0; place < BUCKETS; place++)
        count += sum_at(offset + bucket_of(place));
    return count;
}

static uint64_t failed_of(uint32_t operation)
{
    return sum_at(place_of(operation) + offsetof(operation_counts, failed));
}

/* ---- stat ---- */

/* The text that a call writes; NULL: out of memory. */
static char *text_of(void write_to(FILE *), size_t *length)
{
    char *text = NULL;
    FILE *file = open_memstream(&text, length);
    if (file == NULL)
        return NULL;
    write_to(file);
    bool has_failed = ferror(file) != 0;
    if (fclose(file) != 0 || has_failed) {
        free(text);
        return NULL;
    }
    return text;
}

static void write_stat(FILE *file)
{
    uint64_t failed = 0;
    uint32_t depth = 0;
    freeze_queue_limits limits = {0};
    for (uint32_t operation = 0; operation < OPERATIONS; operation++)
        failed += failed_of(operation);
    freeze_queue_waits_depth(&blkq.waits, &depth);
    freeze_queue_waits_limits(&blkq.waits, &limits);
    fprintf(file, "stat reads %" PRIu64 " writes %" PRIu64, count_at(latency_of(READ)),
            count_at(latency_of(WRITE)) + count_at(latency_of(TRIM)) + count_at(latency_of(ZERO)));
    fprintf(file, " again %" PRIu64 " eio %" PRIu64 " depth %" PRIu32, sum_at(offsetof(counts, again)), failed, depth);
    fprintf(file, " max %" PRIu32 " chunk %" PRIu32 " physical %" PRIu32 " mode %s state %s\n", limits.max, limits.chunk,
            limits.physical, controlled.mode == FREEZE_QUEUE_MODE_ATOMIC ? "atomic" : "slots", state_now());
}

char *tell_stat(size_t *length) { return text_of(write_stat, length); }
char *tell_holders(size_t *length) { return text_of(list_holds, length); }

/* ---- requests ---- */

/* Finds the oldest request in flight that arrived after a time; NULL if there is none. */
static const counts *oldest_after(uint64_t time)
{
    const counts *oldest = NULL;
    for (uint32_t tag = 0; tag < blkq.tags; tag++) {
        uint64_t since = atomic_load_explicit(&blkq.counts[tag].since, memory_order_relaxed);
        if (since > time && (oldest == NULL || since < atomic_load_explicit(&oldest->since, memory_order_relaxed)))
            oldest = &blkq.counts[tag];
    }
    return oldest;
}

/* Writes the requests in flight, the oldest first. */
static void write_requests_now(FILE *file)
{
    uint64_t since = 0;
    for (const counts *one = oldest_after(0); one != NULL; one = oldest_after(since)) {
        since = atomic_load_explicit(&one->since, memory_order_relaxed);
        if (since != 0)
            fprintf(file, "%s %u at %" PRIu64 " %.3f\n", operations[atomic_load(&one->operation)], atomic_load(&one->length),
                    atomic_load(&one->offset), seconds_since(since));
    }
    fprintf(file, "# EOF\n");
}

char *tell_requests(size_t *length) { return text_of(write_requests_now, length); }

/* ---- metrics ---- */

/* In OpenMetrics the name of a counter lacks the _total of its sample. */
static void head(FILE *file, const char *name, const char *type, const char *help)
{
    int length = (int)(strlen(name) - (strcmp(type, "counter") == 0 ? sizeof "_total" - 1 : 0));
    fprintf(file, "# HELP blkq_%.*s %s\n# TYPE blkq_%.*s %s\n", length, name, help, length, name, type);
}

/* The beginning of a sample, up to the disk's label. */
static void sample(FILE *file, const char *name) { fprintf(file, "blkq_%s{disk=\"%s\"", name, disk_name()); }

static void write_number(FILE *file, const char *name, const char *type, const char *help, uint64_t value)
{
    head(file, name, type, help);
    sample(file, name);
    fprintf(file, "} %" PRIu64 "\n", value);
}

static void write_labelled(FILE *file, const char *name, const char *label, const char *is, uint64_t value)
{
    sample(file, name);
    fprintf(file, ",%s=\"%s\"} %" PRIu64 "\n", label, is, value);
}

static void write_by_operation(FILE *file, const char *name, const char *help, uint64_t count(uint32_t operation))
{
    head(file, name, "counter", help);
    for (uint32_t operation = 0; operation < OPERATIONS; operation++)
        write_labelled(file, name, "operation", operations[operation], count(operation));
}

static void sample_of(FILE *file, const char *name, const char *part, const char *operation)
{
    fprintf(file, "blkq_%s_%s{disk=\"%s\",operation=\"%s\"", name, part, disk_name(), operation);
}

/* Bucket n has durations of at most 2^n microseconds, and the last bucket durations of any length. */
static void write_histogram(FILE *file, const char *name, const char *operation, size_t offset)
{
    uint64_t count = 0;
    for (uint32_t place = 0; place < BUCKETS; place++) {
        count += sum_at(offset + bucket_of(place));
        sample_of(file, name, "bucket", operation);
        if (place == BUCKETS - 1)
            fprintf(file, ",le=\"+Inf\"} %" PRIu64 "\n", count);
        else
            fprintf(file, ",le=\"%.9g\"} %" PRIu64 "\n", (double)(1u << place) / 1e6, count);
    }
    uint64_t nanoseconds = sum_at(offset + offsetof(histogram, nanoseconds));
    sample_of(file, name, "sum", operation);
    fprintf(file, "} %.9f\n", (double)nanoseconds / 1e9);
    sample_of(file, name, "count", operation);
    fprintf(file, "} %" PRIu64 "\n", count);
}

static uint64_t requests_of(uint32_t operation) { return count_at(latency_of(operation)); }
static uint64_t waits_of(uint32_t operation) { return count_at(waiting_of(operation)); }
static uint64_t bytes_of(uint32_t operation) { return sum_at(place_of(operation) + offsetof(operation_counts, bytes)); }
static uint64_t pieces_of(uint32_t operation) { return sum_at(place_of(operation) + offsetof(operation_counts, pieces)); }

static void write_requests(FILE *file)
{
    write_by_operation(file, "requests_total", "Requests that were done.", requests_of);
    write_by_operation(file, "errors_total", "Requests that failed.", failed_of);
    write_by_operation(file, "bytes_total", "Bytes of the requests that were done.", bytes_of);
    write_by_operation(file, "pieces_total", "Pieces that the backend did.", pieces_of);
    write_by_operation(file, "waits_total", "Requests that waited for a tag or a thaw.", waits_of);
    write_number(file, "again_total", "counter", "Requests refused by a frozen queue.", sum_at(offsetof(counts, again)));
    head(file, "latency_seconds", "histogram", "Time from a request's arrival to its completion, waiting included.");
    for (uint32_t operation = 0; operation < OPERATIONS; operation++)
        write_histogram(file, "latency_seconds", operations[operation], latency_of(operation));
    head(file, "waiting_seconds", "histogram", "Time for which requests waited for a tag or a thaw.");
    for (uint32_t operation = 0; operation < OPERATIONS; operation++)
        write_histogram(file, "waiting_seconds", operations[operation], waiting_of(operation));
}

static void write_seconds(FILE *file, const char *name, const char *type, const char *help, double seconds)
{
    head(file, name, type, help);
    sample(file, name);
    fprintf(file, "} %.9f\n", seconds);
}

static void write_state(FILE *file)
{
    static const char *const states[] = {"running", "draining", "flushing", "held"};
    const char *state = state_now();
    head(file, "state", "gauge", "The state of the queue: its sample is 1, and the others are 0.");
    for (size_t i = 0; i < sizeof states / sizeof *states; i++)
        write_labelled(file, "state", "state", states[i], strcmp(state, states[i]) == 0);
}

/* Where the time of freezes goes. What is neither drain nor flush is the command that a freeze is held for. */
static void write_freezes(FILE *file)
{
    uint32_t depth = 0;
    freeze_queue_waits_depth(&blkq.waits, &depth);
    write_number(file, "freeze_depth", "gauge", "Freezes that are not thawed.", depth);
    write_number(file, "freezes_total", "counter", "Freezes that were drained.", controlled.freezes);
    write_number(file, "quiesces_total", "counter", "Freezes that were drained and flushed.", controlled.quiesces);
    write_number(file, "thaws_total", "counter", "Freezes that ended, including those of settings.", controlled.thaws);
    write_seconds(file, "frozen_seconds_total", "counter", "Time for which the queue was frozen.", (double)time_frozen() / 1e9);
    write_seconds(file, "drain_seconds_total", "counter", "Time that completed drains took.", (double)controlled.draining / 1e9);
    write_seconds(file, "flush_seconds_total", "counter", "Time that completed flushes took.", (double)controlled.flushing / 1e9);
    write_seconds(file, "oldest_hold_seconds", "gauge", "How long the queue has been frozen, the drain included; 0 if it is running.", seconds_frozen());
    write_number(file, "flush_lost", "gauge", "1 if a flush of the backend has failed since the start: data may be lost.",
                 atomic_load(&blkq.flush_lost));
    write_number(file, "settings_total", "counter", "Changes of the limits.", controlled.settings);
    write_number(file, "audit_lost_total", "counter", "Notes that the journal didn't take.", lost_notes());
    write_number(file, "refused_total", "counter", "Lines that the queue refused, and drains and flushes that failed or were given up.", controlled.refused);
}

static void write_queue(FILE *file)
{
    freeze_queue_limits limits = {0};
    const counts *oldest = oldest_after(0);
    uint64_t since = oldest == NULL ? 0 : atomic_load(&oldest->since);
    write_seconds(file, "oldest_request_seconds", "gauge", "How long the oldest request has been in flight; 0 if there is none.",
                  since == 0 ? 0 : seconds_since(since));
    freeze_queue_waits_limits(&blkq.waits, &limits);
    write_number(file, "waiting", "gauge", "Requests that wait now.", atomic_load(&blkq.waiting));
    write_number(file, "tags", "gauge", "Maximum number of requests in flight.", blkq.tags);
    write_number(file, "tags_out", "gauge", "Tags of requests in flight, or waiting for the thaw.",
                 freeze_queue_pool_in_flight(&blkq.pool, NULL, 0));
    head(file, "limit_sectors", "gauge", "The limits in force, in sectors of 512 bytes.");
    write_labelled(file, "limit_sectors", "limit", "max", limits.max);
    write_labelled(file, "limit_sectors", "limit", "chunk", limits.chunk);
    write_labelled(file, "limit_sectors", "limit", "physical", limits.physical);
    write_labelled(file, "limit_sectors", "limit", "hardware", limits.hardware);
}

static void write_snapshots(FILE *file)
{
    snapshot_counts found = blkq.snapshots->count();
    write_number(file, "snapshots_total", "counter", "Snapshots that were taken.", found.taken);
    write_number(file, "snapshots_lost_total", "counter", "Snapshots that broke, or were too old: their copies are worth nothing.", found.lost);
    write_number(file, "snapshot_blocks_total", "counter", "Blocks that were kept for snapshots before a client changed them.", found.kept);
    write_number(file, "snapshot_bytes", "gauge", "Room that the snapshot takes now.", found.bytes);
    write_seconds(file, "snapshot_seconds", "gauge", "Age of the snapshot; 0 if there is none.", found.seconds);
}

static void write_metrics(FILE *file)
{
    write_requests(file);
    write_state(file);
    write_freezes(file);
    write_queue(file);
    if (blkq.snapshots != NULL)
        write_snapshots(file);
    fprintf(file, "# EOF\n");
}

char *tell_metrics(size_t *length) { return text_of(write_metrics, length); }
