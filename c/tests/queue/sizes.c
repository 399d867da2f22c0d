/* What the sizes of a gate and of a queue cost, where nothing is held and nothing else runs. sizes TURNS prints, for each of four
 * numbers of slots, 'kill,SLOTS,KILL,REVIVAL' of a gate and 'freeze,SLOTS,FREEZE,THAW' of a queue: nanoseconds by the clock, the
 * middle of the turns. Then come lines 'bytes,SLOTS,TAGS,BYTES' of the heap that a queue has with all its tags given out. Memory
 * has to grow by the slots and the tags that are asked for, and not by the greatest: else the status is 1. (Linked with
 * --wrap=malloc and the like.) */
#define _GNU_SOURCE
#include "freeze_queue.h"
#include "percpu_gate.h"

#include "../is.h"
#include "../need.h"
#include <malloc.h>
#include <stdlib.h>
#include <time.h>

enum { MOST_TURNS = 1000000, LINE = 128 /* bytes of a slot */, OTHER = 2048 /* bytes that aren't of a slot or a tag, at most */ };

void *__real_malloc(size_t size);
void *__real_calloc(size_t count, size_t size);
void *__real_realloc(void *at, size_t size);
int __real_posix_memalign(void **at, size_t alignment, size_t size);
void __real_free(void *at);

static size_t heap; /* bytes of the blocks that are allocated, as glibc rounds them */

static void *counted(void *at)
{
    heap += malloc_usable_size(at);
    return at;
}

void *__wrap_malloc(size_t size) { return counted(__real_malloc(size)); }
void *__wrap_calloc(size_t count, size_t size) { return counted(__real_calloc(count, size)); }

void *__wrap_realloc(void *at, size_t size)
{
    heap -= malloc_usable_size(at);
    return counted(__real_realloc(at, size));
}

int __wrap_posix_memalign(void **at, size_t alignment, size_t size)
{
    int refused = __real_posix_memalign(at, alignment, size);
    if (!refused)
        counted(*at);
    return refused;
}

void __wrap_free(void *at)
{
    heap -= malloc_usable_size(at);
    __real_free(at);
}

static double *first, *second; /* the times of each turn */
static long turns;

/* The clock, in nanoseconds. */
static double now(void)
{
    struct timespec at;
    clock_gettime(CLOCK_MONOTONIC, &at);
    return (double)at.tv_sec * 1e9 + (double)at.tv_nsec;
}

static int by_size(const void *one, const void *other)
{
    double a = *(const double *)one, b = *(const double *)other;
    return (a > b) - (a < b);
}

static double middle(double *times)
{
    qsort(times, (size_t)turns, sizeof *times, by_size);
    return times[turns / 2];
}

static void tells_times(const char *what, uint32_t slots)
{
    double one = middle(first), other = middle(second);
    printf("%s,%u,%.0f,%.0f\n", what, slots, one, other);
}

static void kills(uint32_t slots)
{
    static const uint64_t words[PERCPU_GATE_WORD_COUNT];
    percpu_gate_control control = {0};
    need(percpu_gate_new(&control, slots, 1, PERCPU_GATE_START_SLOTS, words) == PERCPU_GATE_OK, "no gate");
    for (long turn = 0; turn < turns; turn++) {
        double began = now();
        need(percpu_gate_kill(&control) == PERCPU_GATE_LAST, "no kill");
        double between = now();
        need(percpu_gate_reinit(&control) == PERCPU_GATE_OK, "no revival");
        second[turn] = now() - between;
        first[turn] = between - began;
    }
    percpu_gate_free_control(&control);
    tells_times("kill", slots);
}

static void freezes(uint32_t slots)
{
    const freeze_queue_limits limits = {.hardware = 8};
    freeze_queue freezer = {0};
    uint32_t depth;
    need(freeze_queue_new(&freezer, &limits, slots, 1) == FREEZE_QUEUE_OK, "no queue");
    for (long turn = 0; turn < turns; turn++) {
        double began = now();
        need(freeze_queue_start_freeze(&freezer, &depth) == FREEZE_QUEUE_DRAINED, "no freeze");
        double between = now();
        need(freeze_queue_thaw(&freezer, &depth) == FREEZE_QUEUE_LIVE_AGAIN, "no thaw");
        second[turn] = now() - between;
        first[turn] = between - began;
    }
    freeze_queue_free(&freezer);
    tells_times("freeze", slots);
}

/* The bytes of a queue whose tags are all given out. */
static size_t bytes(uint32_t slots, uint32_t count)
{
    static freeze_queue_tag tags[FREEZE_QUEUE_MOST_TAGS];
    const freeze_queue_limits limits = {.hardware = 8};
    freeze_queue freezer = {0};
    size_t before = heap;
    need(freeze_queue_new(&freezer, &limits, slots, count) == FREEZE_QUEUE_OK, "no queue");
    for (uint32_t i = 0; i < count; i++)
        need(freeze_queue_next_tag(&freezer, &tags[i]) == FREEZE_QUEUE_OK, "no tag");
    size_t taken = heap - before;
    for (uint32_t i = 0; i < count; i++)
        freeze_queue_free_tag(&tags[i]);
    freeze_queue_free(&freezer);
    TELLS(heap, before);
    return taken;
}

static void memory_grows_by_what_is_asked_for(void)
{
    static const uint32_t sizes[][2] = {{1, 1}, {8, 1}, {64, 1}, {512, 1}, {1, 63}, {1, 1023}, {64, 63}, {512, 1023}};
    const size_t least = bytes(1, 1), tag = (bytes(1, 65) - least) / 64;
    for (size_t i = 0; i < sizeof sizes / sizeof *sizes; i++) {
        const uint32_t slots = sizes[i][0], tags = sizes[i][1];
        const size_t taken = bytes(slots, tags), want = (slots - 1) * LINE + (tags - 1) * tag;
        printf("bytes,%u,%u,%zu\n", slots, tags, taken);
        TELLS(taken + tags / 8 + 64 >= least + want && taken <= least + want + 8 * tags + 64, true); /* 64: between blocks that are aligned */
    }
    TELLS(least <= OTHER + 2 * LINE + tag && tag <= 1280, true);
}

int main(int count, char **given)
{
    static const uint32_t slots[] = {1, 8, 64, 512};
    need(count == 2, "usage: sizes TURNS");
    char *end = given[1];
    turns = strtol(given[1], &end, 10);
    need(end != given[1] && *end == '\0' && turns >= 1 && turns <= MOST_TURNS, "the turns are out of range");
    need(mallopt(M_MMAP_THRESHOLD, 1 << 25) == 1, "no blocks of the heap alone");
    need((first = calloc((size_t)turns, sizeof *first)) && (second = calloc((size_t)turns, sizeof *second)), "no memory");
    for (size_t i = 0; i < sizeof slots / sizeof *slots; i++)
        kills(slots[i]);
    for (size_t i = 0; i < sizeof slots / sizeof *slots; i++)
        freezes(slots[i]);
    memory_grows_by_what_is_asked_for();
    free(first);
    free(second);
    return failures > 0;
}
