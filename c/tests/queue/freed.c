/* Tags that are freed in one thread while another leaves a frozen queue. A freed tag isn't in, and doesn't look in: so whoever
 * leaves is told that the queue is drained by it. Word: how many queues. */
#define _POSIX_C_SOURCE 200809L
#include "freeze_queue.h"
#include "../moment.h"
#include "../need.h"

#include <pthread.h>
#include <stdatomic.h>
#include <stdio.h>
#include <stdlib.h>

enum { TAGS = 63 };

static freeze_queue freezer;
static freeze_queue_tag tags[TAGS]; /* the first is in */
static atomic_long begun, ended;    /* queues */

static void wait_for(atomic_long *count, long high)
{
    while (atomic_load(count) < high)
        gives_way();
}

static void *frees(void *queues)
{
    for (long i = 1; i <= *(long *)queues; i++) {
        wait_for(&begun, i);
        for (int t = 1; t < TAGS; t++)
            freeze_queue_free_tag(&tags[t]);
        atomic_store(&ended, i);
    }
    return NULL;
}

static void one_queue(long turn)
{
    const freeze_queue_limits limits = {8, 0, 0, 1};
    uint32_t depth;
    need(freeze_queue_new(&freezer, &limits, 1, TAGS) == FREEZE_QUEUE_OK, "no queue");
    for (int t = 0; t < TAGS; t++)
        need(freeze_queue_next_tag(&freezer, &tags[t]) == FREEZE_QUEUE_OK, "no tag");
    need(freeze_queue_try_enter(&tags[0], 0) == FREEZE_QUEUE_OK, "no entering");
    need(freeze_queue_start_freeze(&freezer, &depth) == FREEZE_QUEUE_OK, "a freeze");
    atomic_store(&begun, turn);
    for (volatile long i = 0; i < turn % 512 * 8; i++) {}
    need(freeze_queue_leave(&tags[0], 0) == FREEZE_QUEUE_LAST, "the drain isn't told to the tag that left");
    need(freeze_queue_poll_drained(&freezer), "not drained");
    wait_for(&ended, turn);
    freeze_queue_free_tag(&tags[0]);
    freeze_queue_free(&freezer);
}

int main(int argc, char **argv)
{
    pthread_t thread;
    long queues = argc > 1 ? atol(argv[1]) : 1000;
    need(pthread_create(&thread, NULL, frees, &queues) == 0, "no thread");
    for (long turn = 1; turn <= queues; turn++)
        one_queue(turn);
    pthread_join(thread, NULL);
    printf("told each time\n");
    return 0;
}
