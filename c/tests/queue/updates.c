/* Changes of one field by several threads: each adds 1 to its own of max and chunk so often, by freeze_queue_waits_update,
 * and none is lost. With the word 'apart' they read the limits, change one field and set all, by calls of their own, which
 * loses some: then the program fails, as it has to. Words: how many changes a thread makes, and 'apart' or nothing. */
#define _POSIX_C_SOURCE 200809L
#include "freeze_queue_waits.h"

#include <pthread.h>
#include <sched.h>
#include <stdio.h>
#include <stdlib.h>
#include <string.h>

enum { THREADS = 4 };

static freeze_queue freezer;
static freeze_queue_waits waits;
static long changes;
static bool apart;
static uint32_t wrong;
static pthread_barrier_t all_have_read; /* where they are apart: before the first of the changes is set, so that some are lost */

/* Adds 1 to the field of this thread. */
static uint32_t adds_one(freeze_queue_limits *limits, void *of_chunk)
{
    if (of_chunk)
        limits->chunk++;
    else
        limits->max++;
    return FREEZE_QUEUE_OK;
}

/* The same by three calls, as before there was one. */
static uint32_t adds_one_apart(void *of_chunk, bool is_first)
{
    freeze_queue_limits limits;
    uint32_t answer = freeze_queue_waits_limits(&waits, &limits);
    if (is_first)
        pthread_barrier_wait(&all_have_read);
    sched_yield();
    if (answer == FREEZE_QUEUE_OK)
        answer = adds_one(&limits, of_chunk);
    return answer == FREEZE_QUEUE_OK ? freeze_queue_waits_change(&waits, &limits, NULL) : answer;
}

static void *changes_limits(void *of_chunk)
{
    for (long i = 0; i < changes; i++) {
        uint32_t answer = apart ? adds_one_apart(of_chunk, i == 0) : freeze_queue_waits_update(&waits, adds_one, of_chunk, NULL);
        if (answer != FREEZE_QUEUE_OK)
            __atomic_store_n(&wrong, 1, __ATOMIC_SEQ_CST);
    }
    return NULL;
}

int main(int count, char **words)
{
    pthread_t threads[THREADS];
    const freeze_queue_limits first = {.hardware = FREEZE_QUEUE_MOST_HARDWARE, .max = 1, .chunk = 1};
    freeze_queue_limits limits = {0, 0, 0, 0};
    changes = count > 1 ? strtol(words[1], NULL, 10) : 0;
    apart = count == 3 && strcmp(words[2], "apart") == 0;
    if (changes < 1 || changes > 30000 || freeze_queue_new(&freezer, &first, 1, 1) || freeze_queue_waits_init(&waits, &freezer) ||
        pthread_barrier_init(&all_have_read, NULL, THREADS) != 0)
        return 2;
    for (int i = 0; i < THREADS; i++)
        if (pthread_create(&threads[i], NULL, changes_limits, i % 2 ? &waits : NULL) != 0)
            return 2;
    for (int i = 0; i < THREADS; i++)
        pthread_join(threads[i], NULL);
    uint32_t want = 1 + THREADS / 2 * (uint32_t)changes;
    bool lost = freeze_queue_waits_limits(&waits, &limits) != FREEZE_QUEUE_OK || limits.max != want || limits.chunk != want;
    printf("max %u chunk %u, wanted %u %u%s\n", limits.max, limits.chunk, want, want, lost || wrong ? ": FAILED" : "");
    freeze_queue_waits_destroy(&waits);
    freeze_queue_free(&freezer);
    return lost ? 3 : wrong != 0;
}
