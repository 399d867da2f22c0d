/* Pools that end while threads have tags. In each life detached threads begin with a tag of the pool each, enter or are
 * answered DYING, and give the tag back as their last call; more threads wait for a tag, and are let out. The pool ends by
 * freeze_queue_pool_end, or by freeze_queue_pool_empty once no tag is out, and its memory is freed at once: a call that is
 * still inside is told by the sanitizers. Words: how many lives. */
#define _POSIX_C_SOURCE 200809L
#include "inline.h"
#include "freeze_queue_pool.h"
#include "takes_waiting.h"
#include "../moment.h"

#include <stdio.h>
#include <stdlib.h>

enum { TAGS = 3, WAITERS = 2 };

static freeze_queue freezer;
static freeze_queue_waits waits;
static freeze_queue_pool *pool;
static uint32_t here, wrong;

static void need(bool holds)
{
    if (!holds)
        __atomic_store_n(&wrong, 1, __ATOMIC_SEQ_CST);
}

/* A request that has a tag: it holds it for a moment, and gives it back, and is in no call any more. */
static void *goes_on(void *tag)
{
    uint32_t answer = freeze_queue_waits_enter(&waits, tag, 0, NULL);
    if (answer == FREEZE_QUEUE_OK) {
        gives_way();
        need(freeze_queue_waits_leave(&waits, tag, 0) == FREEZE_QUEUE_OK);
    } else
        need(answer == FREEZE_QUEUE_ERR_DYING);
    need(freeze_queue_pool_give(pool, tag) == FREEZE_QUEUE_OK);
    __atomic_sub_fetch(&here, 1, __ATOMIC_SEQ_CST);
    return NULL;
}

/* Waits for a tag, and gives it back, until there is none any more. */
static void *takes(void *unused)
{
    freeze_queue_tag *tag;
    (void)unused;
    while ((tag = takes_waiting(pool, 1, NULL)) != NULL)
        need(freeze_queue_pool_give(pool, tag) == FREEZE_QUEUE_OK);
    return NULL;
}

static void begins(long number)
{
    const freeze_queue_limits limits = {.hardware = 64};
    pool = freeze_queue_pool_new();
    if (pool == NULL || freeze_queue_new(&freezer, &limits, 1, TAGS) || freeze_queue_waits_init(&waits, &freezer) ||
        freeze_queue_pool_fill(pool, &waits, TAGS))
        exit(2);
    if (number % 2)
        need(freeze_queue_waits_freeze(&waits, NULL) == FREEZE_QUEUE_OK);
    for (uint32_t i = 0; i < TAGS; i++) {
        pthread_t thread;
        freeze_queue_tag *tag = freeze_queue_pool_take(pool, i);
        __atomic_add_fetch(&here, 1, __ATOMIC_SEQ_CST);
        if (tag == NULL || pthread_create(&thread, NULL, goes_on, tag) != 0 || pthread_detach(thread) != 0)
            exit(2);
    }
}

/* The end by one call, with threads that wait for a tag, which are joined. */
static void ends_at_once(void)
{
    pthread_t waiters[WAITERS];
    const struct timespec now = freeze_queue_deadline(0);
    for (int i = 0; i < WAITERS; i++)
        if (pthread_create(&waiters[i], NULL, takes, NULL) != 0)
            exit(2);
    need(freeze_queue_waits_mark_dying(&waits) == FREEZE_QUEUE_OK);
    uint32_t answer = freeze_queue_pool_end(pool, &now);
    if (answer == FREEZE_QUEUE_ERR_TIMED_OUT)
        answer = freeze_queue_pool_end(pool, NULL);
    need(answer == FREEZE_QUEUE_OK);
    for (int i = 0; i < WAITERS; i++)
        pthread_join(waiters[i], NULL);
}

/* The end by asking again and again whether all are back. */
static void ends_when_empty(void)
{
    uint32_t answer;
    need(freeze_queue_waits_mark_dying(&waits) == FREEZE_QUEUE_OK);
    for (long asked = 1;; asked++) {
        answer = freeze_queue_pool_empty(pool);
        if (answer != FREEZE_QUEUE_ERR_TAGS_OUT)
            break;
        if (asked % 8 == 0)
            moment(); /* the others want the lock */
    }
    need(answer == FREEZE_QUEUE_OK);
}

int main(int count, char **words)
{
    long lives = count == 2 ? strtol(words[1], NULL, 10) : 0;
    freeze_queue_final last;
    if (lives < 1)
        return 2;
    for (long number = 0; number < lives; number++) {
        begins(number);
        if (number % 3)
            ends_at_once();
        else
            ends_when_empty();
        freeze_queue_pool_free(pool); /* at once */
        need(freeze_queue_waits_end(&waits, &last, NULL) == FREEZE_QUEUE_OK);
        while (__atomic_load_n(&here, __ATOMIC_SEQ_CST) > 0)
            gives_way();
    }
    printf("%ld lives%s\n", lives, wrong ? ", FAILED" : "");
    return wrong != 0;
}
