/* Misuse of the waits and of a pool, and what each call returns: a tag of another queue, a deadline out of range, what is destroyed or
 * freed while it is used. */
#define _POSIX_C_SOURCE 200809L
#include "freeze_queue_pool.h"
#include "../is.h"

#include <stdlib.h>
#include <string.h>

#define IS(call, want) is(#call, call, FREEZE_QUEUE_##want, __LINE__)

static freeze_queue freezers[2];
static freeze_queue_waits waits[2];
static freeze_queue_tag tag; /* of the first */
static const freeze_queue_limits limits = {.hardware = 64};

/* A tag with the waits of another queue: a call that would wait there, or wake threads there, is refused. */
static void a_tag_of_another_queue(void)
{
    IS(freeze_queue_waits_begin_freeze(&waits[0]), DRAINED);
    IS(freeze_queue_waits_try_enter(&waits[1], &tag, 0), ERR_OTHER_QUEUE);
    IS(freeze_queue_waits_enter(&waits[1], &tag, 0, NULL), ERR_OTHER_QUEUE);
    IS(freeze_queue_waits_thaw(&waits[0]), LIVE_AGAIN);
    /* In a live queue nothing has to be waited for, or to be woken. */
    IS(freeze_queue_waits_enter(&waits[1], &tag, 0, NULL), OK);
    IS(freeze_queue_waits_leave(&waits[1], &tag, 0), OK);
    IS(freeze_queue_waits_enter(&waits[0], &tag, 0, NULL), OK);
    IS(freeze_queue_waits_begin_freeze(&waits[0]), OK);
    IS(freeze_queue_waits_leave(&waits[1], &tag, 0), ERR_OTHER_QUEUE);
    IS(freeze_queue_waits_leave(&waits[0], &tag, 0), ERR_TAG_NOT_ENTERED); /* it has left */
    IS(freeze_queue_waits_thaw(&waits[0]), LIVE_AGAIN);
    IS(freeze_queue_waits_give_tag_back(&waits[1], &tag), ERR_OTHER_QUEUE);
}

static uint32_t is_not_called(freeze_queue_limits *of, void *argument)
{
    (void)argument;
    of->max = 1;
    TELLS(true, false);
    return FREEZE_QUEUE_OK;
}

/* Each call that takes a deadline refuses these, before it does anything. */
static void deadlines_out_of_range(void)
{
    freeze_queue_final last;
    freeze_queue_pool *pool = freeze_queue_pool_new();
    const freeze_queue_limits other = {.hardware = 64, .max = 5};
    const long wrong[] = {-1, 1000000000, 2000000000, -999999999};
    freeze_queue_limits now = {0, 0, 0, 0};
    uint32_t depth = 7;
    if (pool == NULL || freeze_queue_pool_fill(pool, &waits[0], 1))
        exit(1);
    for (int i = 0; i < 4; i++) {
        const struct timespec deadline = {freeze_queue_deadline(1000000000).tv_sec, wrong[i]};
        IS(freeze_queue_waits_enter(&waits[0], &tag, 0, &deadline), ERR_BAD_DEADLINE);
        IS(freeze_queue_waits_leave(&waits[0], &tag, 0), ERR_TAG_NOT_ENTERED);
        IS(freeze_queue_waits_enter(&waits[0], &tag, 0, NULL), OK);
        IS(freeze_queue_waits_leave(&waits[0], &tag, 0), OK);
        IS(freeze_queue_waits_freeze(&waits[0], &deadline), ERR_BAD_DEADLINE);
        IS(freeze_queue_waits_change(&waits[0], &other, &deadline), ERR_BAD_DEADLINE);
        IS(freeze_queue_waits_update(&waits[0], is_not_called, NULL, &deadline), ERR_BAD_DEADLINE);
        IS(freeze_queue_pool_end(pool, &deadline), ERR_BAD_DEADLINE);
        IS(freeze_queue_waits_end(&waits[0], &last, &deadline), ERR_BAD_DEADLINE);
    }
    const struct timespec edges[] = {{0, 0}, {0, 999999999}, {-5, 0}};
    for (int i = 0; i < 3; i++) {
        IS(freeze_queue_waits_enter(&waits[0], &tag, 0, &edges[i]), OK);
        IS(freeze_queue_waits_freeze(&waits[0], &edges[i]), ERR_TIMED_OUT);
        IS(freeze_queue_waits_leave(&waits[0], &tag, 0), OK);
    }
    IS(freeze_queue_waits_depth(&waits[0], &depth), OK);
    IS(freeze_queue_waits_limits(&waits[0], &now), OK);
    TELLS(depth == 0 && now.max == 64 && !freeze_queue_waits_is_dying(&waits[0]), true);
    /* A filled pool isn't freed, and goes on. */
    IS(freeze_queue_pool_free(pool), ERR_OPEN);
    IS(freeze_queue_pool_destroy(pool), ERR_OPEN);
    freeze_queue_tag *taken = freeze_queue_pool_take(pool, 0);
    TELLS(taken != NULL, true);
    if (taken != NULL)
        IS(freeze_queue_pool_give(pool, taken), OK);
    IS(freeze_queue_pool_empty(pool), OK);
    IS(freeze_queue_pool_destroy(pool), OK);
    IS(freeze_queue_pool_free(pool), OK);
}

/* A slot that the queue doesn't have is refused, whether the tag is biased or not, and the tag stays as it is. */
static void slots_out_of_range(void)
{
    const uint32_t wrong[] = {1, 2, UINT32_MAX};
    for (int i = 0; i < 9; i++) {
        IS(freeze_queue_waits_enter(&waits[0], &tag, wrong[i / 3], NULL), ERR_BAD_SLOT);
        IS(freeze_queue_waits_leave(&waits[0], &tag, 0), ERR_TAG_NOT_ENTERED);
        IS(freeze_queue_waits_enter(&waits[0], &tag, 0, NULL), OK);
        IS(freeze_queue_waits_leave(&waits[0], &tag, wrong[i / 3]), ERR_BAD_SLOT);
        IS(freeze_queue_waits_leave(&waits[0], &tag, 0), OK);
        if (i % 3 == 2) {
            IS(freeze_queue_waits_freeze(&waits[0], NULL), OK); /* it takes the bias */
            IS(freeze_queue_waits_thaw(&waits[0]), LIVE_AGAIN);
        }
    }
}

/* Waits and their queue: each queue has waits once, and isn't freed beside them. */
static void waits_of_a_queue(void)
{
    freeze_queue queue = {0};
    freeze_queue_waits one, other;
    freeze_queue_final last;
    memset(&one, 0, sizeof one);
    IS(freeze_queue_waits_init(&one, &queue), ERR_CLOSED);
    TELLS(freeze_queue_waits_new(&queue) == NULL, true);
    IS(freeze_queue_waits_destroy(&one), ERR_CLOSED);
    IS(freeze_queue_new(&queue, &limits, 1, 1), OK);
    IS(freeze_queue_waits_init(&one, &queue), OK);
    IS(freeze_queue_waits_init(&one, &queue), ERR_IN_USE);
    IS(freeze_queue_waits_init(&other, &queue), ERR_IN_USE);
    IS(freeze_queue_free(&queue), ERR_IN_USE);
    TELLS(queue.is_open, true);
#if defined(__linux__)
    TELLS(freeze_queue_waits_live_event(&one) == -1 && freeze_queue_waits_drained_event(&one) == -1, true);
    IS(freeze_queue_waits_open_events(&one), OK);
    IS(freeze_queue_waits_open_events(&one), ERR_OPEN);
#endif
    IS(freeze_queue_waits_destroy(&one), OK);
    IS(freeze_queue_waits_destroy(&one), ERR_CLOSED);
    freeze_queue_waits *volatile made = freeze_queue_waits_new(&queue); /* volatile: a refused free frees nothing, which gcc may not see */
    if (made == NULL)
        exit(1);
    IS(freeze_queue_waits_free(made), ERR_OPEN);
    IS(freeze_queue_waits_end(made, &last, NULL), OK);
    IS(freeze_queue_waits_end(made, &last, NULL), ERR_CLOSED);
    IS(freeze_queue_waits_destroy(made), ERR_CLOSED);
    IS(freeze_queue_waits_free(made), OK);
    IS(freeze_queue_new(&queue, &limits, 1, 1), OK); /* the same handle once more */
    IS(freeze_queue_waits_init(&one, &queue), OK);
    IS(freeze_queue_waits_destroy(&one), OK);
    IS(freeze_queue_free(&queue), OK);
    TELLS(queue.is_open, false);
}

/* A tag is waited for: in vain, in time, and in a pool that has ended. */
static void tags_that_are_waited_for(void)
{
    static freeze_queue_pool pool;
    freeze_queue_tag *taken = NULL, *none = &tag;
    const struct timespec passed = {0, 0}, wrong = {0, -1};
    IS(freeze_queue_pool_take_waiting(&pool, 0, NULL, &none), ERR_CLOSED);
    IS(freeze_queue_pool_fill(&pool, &waits[1], 1), OK);
    IS(freeze_queue_pool_take_waiting(&pool, 0, &wrong, &none), ERR_BAD_DEADLINE);
    IS(freeze_queue_pool_take_waiting(&pool, 7, &passed, &taken), OK);
    IS(freeze_queue_pool_take_waiting(&pool, 0, &passed, &none), ERR_TIMED_OUT);
    TELLS(none == &tag && freeze_queue_pool_take(&pool, 0) == NULL, true);
    IS(freeze_queue_pool_give(&pool, taken), OK);
    IS(freeze_queue_pool_end(&pool, NULL), OK);
    IS(freeze_queue_pool_take_waiting(&pool, 0, NULL, &none), ERR_CLOSED);
    IS(freeze_queue_pool_destroy(&pool), OK);
    TELLS(none == &tag, true);
}

int main(void)
{
    freeze_queue_final last;
    for (int i = 0; i < 2; i++)
        if (freeze_queue_new(&freezers[i], &limits, 1, 2) || freeze_queue_waits_init(&waits[i], &freezers[i]))
            return 1;
    if (freeze_queue_waits_next_tag(&waits[0], &tag))
        return 1;
    a_tag_of_another_queue();
    deadlines_out_of_range();
    slots_out_of_range();
    waits_of_a_queue();
    tags_that_are_waited_for();
    IS(freeze_queue_waits_give_tag_back(&waits[0], &tag), OK);
    for (int i = 0; i < 2; i++)
        IS(freeze_queue_waits_end(&waits[i], &last, NULL), OK);
    printf("%s\n", failures ? "FAILED" : "each is refused");
    return failures != 0;
}
