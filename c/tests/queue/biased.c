/* Tags that are biased, whose requests enter and leave by a store and a load: what a freeze takes from them, who is woken, and how long none is
 * biased after a change. Then requests beside changes of two plain numbers that each request has to see equal: with the system's barrier,
 * in a process that was forked, and in one whose filter refuses that barrier. Word: the changes. */
#define _GNU_SOURCE
#include "inline.h"
#include "freeze_queue_waits.h"
#include "no_barrier.h"
#include "readable.h"
#include "../is.h"
#include "../need.h"

#include <sys/wait.h>

#define IS(call, want) is(#call, call, FREEZE_QUEUE_##want, __LINE__)

enum { THREADS = 2 };

static freeze_queue queue;
static freeze_queue_waits waits;
static freeze_queue_tag tags[THREADS];
static const struct timespec passed = {0, 0};
static long changes;

static void make(void)
{
    const freeze_queue_limits limits = {.hardware = 64};
    need(freeze_queue_new(&queue, &limits, THREADS, THREADS) == FREEZE_QUEUE_OK, "no queue");
    need(freeze_queue_waits_init(&waits, &queue) == FREEZE_QUEUE_OK, "no waits");
    for (int i = 0; i < THREADS; i++)
        need(freeze_queue_waits_next_tag(&waits, &tags[i]) == FREEZE_QUEUE_OK, "no tag");
}

static void end(void)
{
    freeze_queue_final last;
    for (int i = 0; i < THREADS; i++)
        IS(freeze_queue_waits_give_tag_back(&waits, &tags[i]), OK);
    IS(freeze_queue_waits_end(&waits, &last, NULL), OK);
}

/* A request of a tag; whether the tag is biased then. */
static bool biases(freeze_queue_tag *tag)
{
    IS(freeze_queue_waits_enter(&waits, tag, 0, NULL), OK);
    IS(freeze_queue_waits_leave(&waits, tag, 0), OK);
    return freeze_queue_is_biased(IN_WAITS, tag);
}

/* Ends the pause after a change, as time does, and biases a tag. */
static void biases_after_a_change(freeze_queue_tag *tag)
{
    __atomic_store_n(&IN_WAITS->unbiased_until, IN_WAITS->unbiased_until > 0, __ATOMIC_RELAXED);
    for (int requests = 0; !biases(tag); requests++)
        need(requests <= FREEZE_QUEUE_BETWEEN_LOOKS, "a tag isn't biased after the pause");
}

/* An idle tag holds up no freeze, also at the next freezes. A request that is in does. */
static void freezes_take_biases(void)
{
    TELLS(biases(&tags[0]), true);
    for (int freeze = 0; freeze < 3; freeze++) {
        IS(freeze_queue_waits_freeze(&waits, &passed), OK);
        IS(freeze_queue_waits_try_enter(&waits, &tags[0], 0), NOT_ENTERED);
        IS(freeze_queue_waits_thaw(&waits), LIVE_AGAIN);
        biases_after_a_change(&tags[0]);
    }
    IS(freeze_queue_waits_enter(&waits, &tags[0], 1, NULL), OK);
    IS(freeze_queue_waits_enter(&waits, &tags[0], 1, NULL), ERR_ALREADY_ENTERED);
    IS(freeze_queue_waits_freeze(&waits, &passed), ERR_TIMED_OUT);
    IS(freeze_queue_waits_begin_freeze(&waits), OK);
    TELLS(freeze_queue_waits_is_drained(&waits), false);
    IS(freeze_queue_waits_leave(&waits, &tags[0], 1), OK);
    IS(freeze_queue_waits_leave(&waits, &tags[0], 1), ERR_TAG_NOT_ENTERED);
    TELLS(freeze_queue_waits_is_drained(&waits), true);
    IS(freeze_queue_waits_thaw(&waits), LIVE_AGAIN);
}

/* A biased request has the limits of its moment: those of the last change. There are more changes than a tag has requests between two looks at
 * the clock, so the count of freezes in its note of a bias isn't taken for such requests. */
static void limits_follow_a_change(void)
{
    freeze_queue_limits limits = {.hardware = 64};
    for (uint32_t max = 1; max <= 2 * FREEZE_QUEUE_BETWEEN_LOOKS; max++) {
        biases_after_a_change(&tags[0]);
        limits = (freeze_queue_limits){.hardware = 64, .max = max};
        IS(freeze_queue_waits_change(&waits, &limits, NULL), OK);
        for (int request = 0; request < 3; request++) {
            IS(freeze_queue_waits_enter(&waits, &tags[0], 0, NULL), OK);
            IS(freeze_queue_limits_of(&tags[0], &limits), OK);
            TELLS(limits.max, max);
            IS(freeze_queue_waits_leave(&waits, &tags[0], 0), OK);
        }
    }
}

/* A look with a biased tag holds the drain off, and so does no tag that went back. */
static void looks_and_goes_back(void)
{
    biases_after_a_change(&tags[0]);
    IS(freeze_queue_try_enter_frozen(&tags[0], 1), OK);
    IS(freeze_queue_waits_freeze(&waits, &passed), ERR_TIMED_OUT);
    IS(freeze_queue_waits_leave(&waits, &tags[0], 1), OK);
    biases_after_a_change(&tags[0]);
    IS(freeze_queue_waits_begin_freeze(&waits), DRAINED);
    IS(freeze_queue_try_enter_frozen(&tags[0], 1), NOT_ENTERED);
    IS(freeze_queue_waits_thaw(&waits), LIVE_AGAIN);
    biases_after_a_change(&tags[0]);
    IS(freeze_queue_waits_give_tag_back(&waits, &tags[0]), OK);
    TELLS(tags[0].reserved.words[0] == NULL && tags[0].reserved.words[1] == NULL, true); /* nothing for the waits of another queue */
    IS(freeze_queue_waits_freeze(&waits, &passed), OK);
    IS(freeze_queue_waits_thaw(&waits), LIVE_AGAIN);
    IS(freeze_queue_waits_next_tag(&waits, &tags[0]), OK);
}

/* The vain try of a tag in a drained queue wakes nobody, whether the tag was biased or not. */
static void a_vain_try_wakes_nobody(void)
{
#if defined(__linux__)
    uint64_t count;
    IS(freeze_queue_waits_open_events(&waits), OK);
    biases_after_a_change(&tags[0]);
    IS(freeze_queue_waits_begin_freeze(&waits), DRAINED);
    for (int of = 0; of < 2; of++)
        for (int try = 0; try < 2; try++) {
            TELLS(eventfd_read(freeze_queue_waits_drained_event(&waits), &count) == 0, try + of == 0);
            IS(freeze_queue_waits_try_enter(&waits, &tags[of], 0), NOT_ENTERED);
            TELLS(is_readable(freeze_queue_waits_drained_event(&waits)), false);
        }
    IS(freeze_queue_waits_thaw(&waits), LIVE_AGAIN);
#endif
}

/* Takes biases between two times; how long no tag is biased then. */
static uint64_t pause_after(uint64_t from, uint64_t to)
{
    freeze_queue_waits_pauses(IN_WAITS, from, to);
    return IN_WAITS->unbiased_until - to;
}

/* No tag is biased for as long as taking the biases took, and twice as long each time that they lived too short. */
static void pauses(void)
{
    freeze_queue_waits_state *state = IN_WAITS;
    biases_after_a_change(&tags[0]);
    IS(freeze_queue_waits_freeze(&waits, NULL), OK);
    TELLS(state->unbiased_until > 0 && state->unbiased_until == state->pause_end && state->pause_length > 0, true);
    IS(freeze_queue_waits_thaw(&waits), LIVE_AGAIN);
    state->unbiased_until = UINT64_MAX;
    for (int request = 0; request < 3 * FREEZE_QUEUE_BETWEEN_LOOKS; request++)
        TELLS(biases(&tags[0]), false);
    state->pause_end = state->pause_length = state->pause_times = 0;
    TELLS(pause_after(100, 115), 15);
    TELLS(pause_after(130 + 16 * 15, 130 + 16 * 15 + 7), 7);
    for (uint64_t times = 2; times <= 2 * FREEZE_QUEUE_MOST_PAUSE; times *= 2)
        TELLS(pause_after(state->pause_end + 1, state->pause_end + 11), 10 * (times < FREEZE_QUEUE_MOST_PAUSE ? times : FREEZE_QUEUE_MOST_PAUSE));
    biases_after_a_change(&tags[0]);
    TELLS(state->unbiased_until, 0);
    IS(freeze_queue_waits_freeze(&waits, NULL), OK);
    IS(freeze_queue_waits_thaw(&waits), LIVE_AGAIN);
    state->unbiased_until = 0;
    IS(freeze_queue_waits_freeze(&waits, NULL), OK); /* takes nothing */
    TELLS(state->unbiased_until, 0);
    IS(freeze_queue_waits_thaw(&waits), LIVE_AGAIN);
}

/* ---- Requests beside changes ---- */

static long one, other; /* plain */
static bool is_over;

static void *request(void *of)
{
    freeze_queue_limits limits;
    bool was_biased = false;
    while (!__atomic_load_n(&is_over, __ATOMIC_RELAXED) || !was_biased) {
        need(freeze_queue_waits_enter(&waits, of, 0, NULL) == FREEZE_QUEUE_OK, "an entering");
        need(freeze_queue_limits_of(of, &limits) == FREEZE_QUEUE_OK && limits.max == (uint32_t)(1 + one % 64), "another setting");
        need(one == other, "a change beside a request");
        need(freeze_queue_waits_leave(&waits, of, 0) == FREEZE_QUEUE_OK, "a leaving");
        was_biased |= freeze_queue_is_biased(IN_WAITS, of);
    }
    return NULL;
}

static uint32_t next(freeze_queue_limits *limits, void *unused)
{
    (void)unused;
    one++;
    limits->max = (uint32_t)(1 + one % 64);
    other = one;
    return FREEZE_QUEUE_OK;
}

static void storm(void)
{
    pthread_t threads[THREADS];
    const freeze_queue_limits first = {.hardware = 64, .max = 1};
    one = other = 0;
    is_over = false;
    need(freeze_queue_waits_change(&waits, &first, NULL) == FREEZE_QUEUE_OK, "a change");
    for (int i = 0; i < THREADS; i++)
        need(pthread_create(&threads[i], NULL, request, &tags[i]) == 0, "no thread");
    for (long change = 0; change < changes; change++)
        need(freeze_queue_waits_update(&waits, next, NULL, NULL) == FREEZE_QUEUE_OK, "an update");
    __atomic_store_n(&is_over, true, __ATOMIC_RELAXED);
    for (int i = 0; i < THREADS; i++)
        pthread_join(threads[i], NULL);
}

/* The same in a process of its own, which was forked beside a queue with biased tags, or has no barrier. */
static void of_a_child(void (*before)(void))
{
    int status = 1;
    fflush(stdout);
    const pid_t child = fork();
    if (child == 0) {
        before();
        storm();
        end();
        _exit(failures);
    }
    need(waitpid(child, &status, 0) == child && status == 0, "a child");
}

static void has_biased_tags(void) { biases_after_a_change(&tags[0]); }

/* A new queue once the system's barrier is refused. */
static void has_no_barrier(void)
{
    refuses_the_barrier();
    make();
}

int main(int argc, char **argv)
{
    changes = argc > 1 ? atol(argv[1]) : 2000;
    of_a_child(has_no_barrier);
    make();
    freezes_take_biases();
    limits_follow_a_change();
    looks_and_goes_back();
    a_vain_try_wakes_nobody();
    pauses();
    storm();
    of_a_child(has_biased_tags);
    storm();
    end();
    printf("%s\n", failures ? "FAILED" : "freezes take biases");
    return failures != 0;
}
