/* A pool of tags: filled and emptied with each refusal, searched from each place, waited for with deadlines, and taken by
 * more threads than it has tags, each of which writes plain memory of the tag that it has. Words: turns, threads. */
#define _POSIX_C_SOURCE 200809L
#include "inline.h"
#include "freeze_queue_pool.h"
#include "takes_waiting.h"
#include "../is.h"

#include <semaphore.h>
#include <stdio.h>
#include <stdlib.h>

enum { MOST = 16, TAGS = 3 };

#define IS(call, want) is(#call, call, FREEZE_QUEUE_##want, __LINE__)

static freeze_queue freezer, other;
static freeze_queue_waits waits, other_waits;
static freeze_queue_pool pool;
static long turns, uses[TAGS]; /* uses: plain, of each tag */

static uint32_t place_of(freeze_queue_tag *tag) { return (uint32_t)((freeze_queue_pooled *)(void *)tag - IN_POOL->tags); }

static void filled_and_emptied(void)
{
    freeze_queue_tag out = {0};
    freeze_queue_final last;
    IS(freeze_queue_pool_empty(&pool), ERR_CLOSED);
    IS(freeze_queue_pool_fill(&pool, &waits, 0), ERR_BAD_SIZE);
    IS(freeze_queue_pool_fill(&pool, &waits, FREEZE_QUEUE_MOST_TAGS + 1), ERR_BAD_SIZE);
    IS(freeze_queue_pool_fill(&pool, &waits, TAGS + 1), ERR_NO_TAG); /* those that it gave are back */
    IS(freeze_queue_next_tag(&freezer, &out), OK);
    IS(freeze_queue_pool_fill(&pool, &waits, TAGS), ERR_NO_TAG);
    IS(freeze_queue_give_tag_back(&freezer, &out), OK);
    IS(freeze_queue_pool_fill(&pool, &waits, TAGS), OK);
    IS(freeze_queue_pool_fill(&pool, &waits, TAGS), ERR_OPEN);
    IS(freeze_queue_pool_fill(&pool, &other_waits, 0), ERR_OPEN); /* before other refusals */
    freeze_queue_tag *tag = freeze_queue_pool_take(&pool, 1);
    TELLS(place_of(tag), 1);
    IS(freeze_queue_pool_empty(&pool), ERR_TAGS_OUT);
    IS(freeze_queue_try_enter(tag, 0), OK);
    freeze_queue_pool_give(&pool, tag);
    IS(freeze_queue_pool_empty(&pool), ERR_ALREADY_ENTERED); /* and keeps two */
    TELLS(IN_POOL->count, 2);
    tag = freeze_queue_pool_take(&pool, 1);
    TELLS(place_of(freeze_queue_pool_take(&pool, 2)), 0);
    TELLS(freeze_queue_pool_take(&pool, 2) == NULL, true); /* the third is the queue's */
    IS(freeze_queue_leave(tag, 0), OK);
    freeze_queue_pool_give(&pool, &IN_POOL->tags[0].tag);
    IS(freeze_queue_pool_empty(&pool), ERR_TAGS_OUT);
    freeze_queue_pool_give(&pool, tag);
    IS(freeze_queue_pool_empty(&pool), OK);
    IS(freeze_queue_waits_end(&other_waits, &last, NULL), OK);
    TELLS(freeze_queue_pool_take(&(freeze_queue_pool){0}, 5) == NULL, true); /* not filled */
}

/* A pool whose end the queue refuses goes on with the tags that it still has, and ends later. */
static void an_end_is_refused(void)
{
    freeze_queue_tag *out[2], out_too = {0};
    IS(freeze_queue_pool_fill(&pool, &waits, TAGS), OK);
    out[0] = freeze_queue_pool_take(&pool, 1);
    IS(freeze_queue_try_enter(out[0], 0), OK);
    IS(freeze_queue_pool_give(&pool, out[0]), OK);
    IS(freeze_queue_pool_end(&pool, NULL), ERR_ALREADY_ENTERED); /* and keeps two */
    TELLS(IN_POOL->count == 2 && !IN_POOL->is_ending, true);
    IS(freeze_queue_pool_end(&pool, NULL), ERR_ALREADY_ENTERED);
    IS(freeze_queue_pool_destroy(&pool), ERR_OPEN);
    IS(freeze_queue_waits_next_tag(&waits, &out_too), OK);
    out[0] = freeze_queue_pool_take(&pool, 1);
    out[1] = freeze_queue_pool_take(&pool, 2);
    TELLS(place_of(out[0]) == 1 && place_of(out[1]) == 0 && freeze_queue_pool_take(&pool, 0) == NULL, true);
    IS(freeze_queue_leave(out[0], 0), OK);
    IS(freeze_queue_pool_give(&pool, out[0]), OK);
    IS(freeze_queue_pool_end(&pool, &(struct timespec){0, 0}), ERR_TIMED_OUT);
    IS(freeze_queue_pool_give(&pool, out[1]), OK);
    IS(freeze_queue_pool_end(&pool, NULL), OK);
    IS(freeze_queue_pool_destroy(&pool), OK);
    IS(freeze_queue_waits_give_tag_back(&waits, &out_too), OK);
}

/* Takes all tags of a pool by one hint: the tag of its place first, and each once. A tag that is given back comes again. */
static void taken_by(uint32_t count, uint32_t hint)
{
    static bool is_out[FREEZE_QUEUE_MOST_TAGS];
    memset(is_out, 0, sizeof is_out);
    for (uint32_t i = 0; i < count; i++) {
        freeze_queue_tag *tag = freeze_queue_pool_take(&pool, hint);
        uint32_t place = tag == NULL ? count : place_of(tag);
        TELLS(place < count && !is_out[place] && (i > 0 || place == hint % count), true);
        if (place >= count)
            return;
        is_out[place] = true;
    }
    TELLS(freeze_queue_pool_take(&pool, hint) == NULL, true);
    for (uint32_t i = 0; i < count; i++) {
        uint32_t place = (i * 7 + hint) % count;
        IS(freeze_queue_pool_give(&pool, &IN_POOL->tags[place].tag), OK);
        TELLS(place_of(freeze_queue_pool_take(&pool, hint)), place);
    }
    for (uint32_t i = 0; i < count; i++)
        IS(freeze_queue_pool_give(&pool, &IN_POOL->tags[i].tag), OK);
    for (uint32_t i = 0; i < count; i++) { /* and twice in a row, by the hint of each place */
        TELLS(place_of(freeze_queue_pool_take(&pool, i)), i);
        IS(freeze_queue_pool_give(&pool, &IN_POOL->tags[i].tag), OK);
        IS(freeze_queue_pool_give(&pool, &IN_POOL->tags[i].tag), ERR_TAG_NOT_OUT);
    }
}

/* Pools of each size up to 70, and of some up to the greatest, whose words have one mark more or less. */
static void pools_of_each_size(void)
{
    static const uint32_t greater[] = {95, 96, 97, 127, 128, 512, 513, 992, 993, FREEZE_QUEUE_MOST_TAGS};
    const uint32_t sizes = 70 + sizeof greater / sizeof *greater;
    freeze_queue_final last;
    IS(freeze_queue_new(&other, &(freeze_queue_limits){8, 0, 0, 1}, 1, FREEZE_QUEUE_MOST_TAGS), OK);
    IS(freeze_queue_waits_init(&other_waits, &other), OK);
    for (uint32_t i = 0; i < sizes; i++) {
        uint32_t count = i < 70 ? i + 1 : greater[i - 70];
        if (count > FREEZE_QUEUE_MOST_TAGS)
            continue;
        IS(freeze_queue_pool_fill(&pool, &other_waits, count), OK);
        TELLS(IN_POOL->last < FREEZE_QUEUE_POOL_WORDS && IN_POOL->last < count && (count < 32 || IN_POOL->last == 31), true);
        taken_by(count, 40);
        taken_by(count, UINT32_MAX);
        IS(freeze_queue_pool_empty(&pool), OK);
    }
    IS(freeze_queue_waits_end(&other_waits, &last, NULL), OK);
}

static void *gives_later(void *tag)
{
    struct timespec at = freeze_queue_deadline(20000000);
    while (clock_nanosleep(CLOCK_MONOTONIC, TIMER_ABSTIME, &at, NULL)) {}
    freeze_queue_pool_give(&pool, tag);
    return NULL;
}

static void waits_for_one(void)
{
    struct timespec past = {0, 0}, soon = freeze_queue_deadline(20000000), late = freeze_queue_deadline(600000000000);
    freeze_queue_tag *tags[TAGS];
    pthread_t thread;
    for (int i = 0; i < TAGS; i++)
        TELLS((tags[i] = takes_waiting(&pool, 0, &past)) != NULL, true);
    TELLS(takes_waiting(&pool, 0, &past) == NULL, true);
    TELLS(takes_waiting(&pool, 0, &soon) == NULL, true);
    if (pthread_create(&thread, NULL, gives_later, tags[1]))
        exit(2);
    TELLS(takes_waiting(&pool, 0, &late) == tags[1], true);
    pthread_join(thread, NULL);
    for (int i = 0; i < TAGS; i++)
        freeze_queue_pool_give(&pool, tags[i]);
    TELLS(IN_POOL->waiting, 0);
}

static void *use(void *of)
{
    uint32_t number = (uint32_t)(uintptr_t)of;
    long done = 0;
    while (done < turns) {
        struct timespec soon = freeze_queue_deadline(1000);
        freeze_queue_tag *tag = done % 5 == 0   ? freeze_queue_pool_take(&pool, number)
                                : done % 5 == 1 ? takes_waiting(&pool, number, &soon)
                                                : takes_waiting(&pool, number, NULL);
        if (tag == NULL)
            continue;
        uses[place_of(tag)]++; /* before it enters: so the pool alone hands it on */
        if (freeze_queue_try_enter(tag, number % 2) || freeze_queue_leave(tag, number % 2))
            abort();
        freeze_queue_pool_give(&pool, tag);
        done++;
    }
    return NULL;
}

static void used_by(uint32_t threads)
{
    pthread_t users[MOST];
    for (uint32_t i = 0; i < threads; i++)
        if (pthread_create(&users[i], NULL, use, (void *)(uintptr_t)i))
            exit(2);
    for (uint32_t i = 0; i < threads; i++)
        pthread_join(users[i], NULL);
    TELLS((uint64_t)(uses[0] + uses[1] + uses[2]), (uint64_t)turns * threads);
}

/* Two threads and one tag, in turn: each waits for the other to have had the tag before it asks again, so a wake that is
 * lost isn't made good by the next. */
static long done[2];
static sem_t had[2]; /* a turn, by each */

static void *take_in_turn(void *of)
{
    uintptr_t me = (uintptr_t)of;
    for (long turn = 1; turn <= turns; turn++) {
        freeze_queue_tag *tag = takes_waiting(&pool, 0, NULL);
        done[me] += tag != NULL;
        freeze_queue_pool_give(&pool, tag);
        sem_post(&had[me]);
        while (sem_wait(&had[1 - me]) != 0) {}
    }
    return NULL;
}

static void in_turn(void)
{
    pthread_t other;
    if (sem_init(&had[0], 0, 0) || sem_init(&had[1], 0, 0) || pthread_create(&other, NULL, take_in_turn, (void *)(uintptr_t)1))
        exit(2);
    take_in_turn((void *)(uintptr_t)0);
    pthread_join(other, NULL);
    TELLS((uint64_t)(done[0] + done[1]), 2 * (uint64_t)turns);
}

int main(int argc, char **argv)
{
    const freeze_queue_limits limits = {8, 0, 0, 1};
    freeze_queue_final last;
    turns = argc > 1 ? atol(argv[1]) : 10000;
    uint32_t threads = argc > 2 ? (uint32_t)atol(argv[2]) : 6;
    if (threads > MOST || freeze_queue_new(&freezer, &limits, 2, TAGS) || freeze_queue_new(&other, &limits, 1, 1) ||
        freeze_queue_waits_init(&waits, &freezer) || freeze_queue_waits_init(&other_waits, &other))
        return 1;
    filled_and_emptied();
    an_end_is_refused();
    pools_of_each_size();
    IS(freeze_queue_pool_fill(&pool, &waits, TAGS), OK);
    waits_for_one();
    used_by(threads);
    IS(freeze_queue_pool_empty(&pool), OK);
    IS(freeze_queue_pool_fill(&pool, &waits, 1), OK);
    in_turn();
    IS(freeze_queue_pool_empty(&pool), OK);
    IS(freeze_queue_waits_end(&waits, &last, NULL), OK);
    printf("%s\n", failures ? "FAILED" : "as many");
    return failures != 0;
}
