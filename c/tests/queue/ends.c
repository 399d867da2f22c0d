/* Queues that end while threads wait to enter. In each life detached threads enter and leave by tags of their own until they
 * are answered DYING, and give their tag back as their last call; another freezes and thaws. freeze_queue_waits_end comes back,
 * and the memory of waits, the freezer and the tags is freed at once: a call that is still inside is told by the sanitizers.
 * Words: how many lives. */
#define _POSIX_C_SOURCE 200809L
#include "freeze_queue_waits.h"
#include "../moment.h"

#include <pthread.h>
#include <stdio.h>
#include <stdlib.h>

enum { THREADS = 4 };

/* What a life has, in one block. */
struct life {
    freeze_queue freezer;
    freeze_queue_waits waits;
    freeze_queue_tag tags[THREADS];
    uint32_t next; /* the tag of the thread that comes next */
};

static uint32_t here; /* threads that were started and haven't gone */
static uint32_t wrong;

static void need(bool holds)
{
    if (!holds)
        __atomic_store_n(&wrong, 1, __ATOMIC_SEQ_CST);
}

/* A thread that submits: its tag goes back whatever it is answered. */
static void *submits(void *at)
{
    struct life *life = at;
    uint32_t me = __atomic_fetch_add(&life->next, 1, __ATOMIC_SEQ_CST), answer;
    freeze_queue_tag *tag = &life->tags[me];
    while ((answer = freeze_queue_waits_enter(&life->waits, tag, me, NULL)) == FREEZE_QUEUE_OK)
        need(freeze_queue_waits_leave(&life->waits, tag, me) == FREEZE_QUEUE_OK);
    need(answer == FREEZE_QUEUE_ERR_DYING);
    need(freeze_queue_waits_try_enter(&life->waits, tag, me) == FREEZE_QUEUE_ERR_DYING);
    need(freeze_queue_waits_give_tag_back(&life->waits, tag) == FREEZE_QUEUE_OK);
    __atomic_sub_fetch(&here, 1, __ATOMIC_SEQ_CST); /* the life is gone by now, or may be */
    return NULL;
}

static void starts(void *(*runs)(void *), void *with)
{
    pthread_t thread;
    __atomic_add_fetch(&here, 1, __ATOMIC_SEQ_CST);
    if (pthread_create(&thread, NULL, runs, with) != 0 || pthread_detach(thread) != 0)
        exit(1);
}

/* Ends a life after so many freezes, with threads that wait for a thaw or not. */
static void live(long number)
{
    const freeze_queue_limits limits = {.hardware = 64};
    const struct timespec now = freeze_queue_deadline(0);
    freeze_queue_final last;
    struct life *life = calloc(1, sizeof *life);
    bool is_frozen = number % 2;
    if (!life || freeze_queue_new(&life->freezer, &limits, THREADS, THREADS) ||
        freeze_queue_waits_init(&life->waits, &life->freezer))
        exit(1);
    if (is_frozen)
        need(freeze_queue_waits_freeze(&life->waits, NULL) == FREEZE_QUEUE_OK);
    for (int i = 0; i < THREADS; i++)
        need(freeze_queue_waits_next_tag(&life->waits, &life->tags[i]) == FREEZE_QUEUE_OK);
    for (int i = 0; i < THREADS; i++)
        starts(submits, life);
    for (long i = 0; i < number % 5; i++) {
        need(freeze_queue_waits_freeze(&life->waits, NULL) == FREEZE_QUEUE_OK);
        need(freeze_queue_waits_thaw(&life->waits) == (is_frozen ? FREEZE_QUEUE_OK : FREEZE_QUEUE_LIVE_AGAIN));
    }
    if (number % 3 == 0)
        need(freeze_queue_waits_mark_dying(&life->waits) == FREEZE_QUEUE_OK);
    uint32_t answer = number % 7 ? FREEZE_QUEUE_ERR_TIMED_OUT : freeze_queue_waits_end(&life->waits, &last, &now);
    if (answer == FREEZE_QUEUE_ERR_TIMED_OUT)
        answer = freeze_queue_waits_end(&life->waits, &last, NULL);
    need(answer == FREEZE_QUEUE_OK && last.dead && last.kills == last.releases);
    for (int i = 0; i < THREADS; i++)
        need(!life->tags[i].is_open);
    need(!life->freezer.is_open);
    free(life);
}

int main(int count, char **words)
{
    long lives = count == 2 ? strtol(words[1], NULL, 10) : 0;
    if (lives < 1)
        return 2;
    for (long number = 0; number < lives; number++)
        live(number);
    while (__atomic_load_n(&here, __ATOMIC_SEQ_CST) > 0)
        gives_way();
    printf("%ld lives%s\n", lives, wrong ? ", FAILED" : "");
    return wrong != 0;
}
