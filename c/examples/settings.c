/* Limits that change while two threads submit: each request is cut by the limits of one setting, which stay the same
 * from its entering to its leaving. A third thread freezes the queue, sets them and thaws it, a thousand times. */
#define _POSIX_C_SOURCE 200809L
#include "freeze_queue_waits.h"
#include <pthread.h>
#include <stdio.h>

enum { REQUESTS = 200000, CHANGES = 1000, SECTORS = 100 };

static freeze_queue queue; /* all zero: closed */
static freeze_queue_waits waits;
static struct submitter {
    freeze_queue_tag tag __attribute__((aligned(128))); /* a line of its own for each thread */
    pthread_t thread;
    long sent, wrong;
} submitters[2];

/* Cuts the request of 100 sectors from start on. In each setting the chunk is four times max, or there is none:
 * pieces that were cut by two settings would show. */
static void send(struct submitter *me, uint64_t start)
{
    freeze_queue_limits limits;
    uint32_t piece;
    me->wrong += freeze_queue_limits_of(&me->tag, &limits) != FREEZE_QUEUE_OK;
    me->wrong += limits.chunk != 0 && limits.chunk != 4 * limits.max;
    for (uint64_t end = start + SECTORS; start < end; start += piece) {
        if (freeze_queue_first_piece(&limits, start, (uint32_t)(end - start), &piece) != FREEZE_QUEUE_OK)
            piece = 1, me->wrong++;
        me->wrong += piece > limits.max;
        me->sent += piece; /* here the command goes to the device */
    }
}

static void *submit(void *of)
{
    struct submitter *me = of;
    uint32_t slot = (uint32_t)(me - submitters);
    for (uint64_t i = 0; i < REQUESTS; i++) {
        me->wrong += freeze_queue_waits_enter(&waits, &me->tag, slot, NULL) != FREEZE_QUEUE_OK;
        send(me, i * SECTORS);
        me->wrong += freeze_queue_waits_leave(&waits, &me->tag, slot) != FREEZE_QUEUE_OK;
    }
    return NULL;
}

int main(void)
{
    freeze_queue_limits limits = {.hardware = 64, .max = 0, .chunk = 0, .physical = 1};
    freeze_queue_final last;
    int changed = 0;
    if (freeze_queue_new(&queue, &limits, 2, 2) || freeze_queue_waits_init(&waits, &queue))
        return 1;
    for (int i = 0; i < 2; i++)
        if (freeze_queue_waits_next_tag(&waits, &submitters[i].tag) ||
            pthread_create(&submitters[i].thread, NULL, submit, &submitters[i]))
            return 1;
    for (uint32_t i = 0; i < CHANGES; i++) {
        limits.max = 1 + i % 64;
        limits.chunk = i % 3 ? 4 * limits.max : 0;
        changed += freeze_queue_waits_change(&waits, &limits, NULL) == FREEZE_QUEUE_OK;
    }
    for (int i = 0; i < 2; i++) {
        pthread_join(submitters[i].thread, NULL);
        printf("thread %d: %ld sectors, %ld wrong\n", i, submitters[i].sent, submitters[i].wrong);
        printf("its tag: %s\n", freeze_queue_text(freeze_queue_waits_give_tag_back(&waits, &submitters[i].tag)));
    }
    printf("%d changes; removed: %s\n", changed, freeze_queue_text(freeze_queue_waits_end(&waits, &last, NULL)));
    printf("frozen %d times, drained %d times, at most %u sectors, chunks of %u\n", (int)last.kills, (int)last.releases,
           last.limits.max, last.limits.chunk);
    return 0;
}
