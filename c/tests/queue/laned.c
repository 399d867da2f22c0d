/* Tags enter and leave by their lanes, in place and by calls of the library in any mixture. First come random calls on one thread, valid and
 * invalid, compared with a model of plain numbers; then requests beside changes of two plain numbers, which each request has to find equal.
 * Both run with the system's barrier, and without it, where no lane may be lent. Words: the number of calls and of changes. With a third word,
 * lanes have to be lent, as cargo's build does. */
#define _GNU_SOURCE
#include "inline.h"
#include "freeze_queue.h"

typedef freeze_queue_answer by_slot(freeze_queue_tag *tag, uint32_t slot);
typedef freeze_queue_answer of_limits(freeze_queue_tag *tag, freeze_queue_limits *limits);

/* The bodies in place, and beside them the calls of the library. */
static by_slot *const in_place[] = {freeze_queue_try_enter, freeze_queue_leave, freeze_queue_leave_biased};
static of_limits *const limits_in_place = freeze_queue_limits_of;
#include "freeze_queue_waits.h"
#include "own_calls.h"
static by_slot *const by_call[] = {freeze_queue_try_enter, freeze_queue_leave, freeze_queue_leave_biased};
static of_limits *const limits_by_call = freeze_queue_limits_of;
enum { ENTER, LEAVE, LEAVE_BIASED };

#include "../random_calls.h"
#include "no_barrier.h"
#include <sched.h>
#include <string.h>
#include <sys/wait.h>

enum { TAGS = 20, SLOTS = 3, THREADS = 3 };

/* What the model has of a tag. A tag that had_bias was parked, at the epoch life. */
static struct { freeze_queue_tag handle; bool open, in, had_bias; uint64_t life; } tags[TAGS];
static freeze_queue queue;
static freeze_queue_limits limits;
static uint64_t epoch;
static uint32_t depth, lost; /* freezes that aren't thawed, and tags that were freed while they were in */
static long changes, lent;

static bool drained(void)
{
    uint32_t in = lost;
    for (int t = 0; t < TAGS; t++)
        in += tags[t].in;
    return depth > 0 && in == 0;
}

/* Whether a tag is in by a lane that is lent. The headers don't say so for the thread sanitizer, where the library alone steps in lanes. */
static bool has_lent(int t)
{
#ifdef FREEZE_QUEUE_LANE_H
    return tags[t].handle.lent_slots != 0 && freeze_queue_lane_is_busy(freeze_queue_lane_of(&tags[t].handle));
#else
    (void)t;
    return false;
#endif
}

static freeze_queue_answer misuse(int t, uint32_t slot, bool is_in)
{
    return !tags[t].open          ? FREEZE_QUEUE_ERR_CLOSED
           : slot >= SLOTS        ? FREEZE_QUEUE_ERR_BAD_SLOT
           : tags[t].in == is_in  ? FREEZE_QUEUE_OK
           : is_in                ? FREEZE_QUEUE_ERR_TAG_NOT_ENTERED
                                  : FREEZE_QUEUE_ERR_ALREADY_ENTERED;
}

static void enter(int t, uint32_t slot, bool here)
{
    freeze_queue_answer want = misuse(t, slot, false);
    const bool by_lane = tags[t].had_bias && tags[t].life == epoch;
    if (want == FREEZE_QUEUE_OK && depth > 0)
        want = FREEZE_QUEUE_NOT_ENTERED;
    if (!freeze_queue_is_refused(want)) {
        tags[t].in = want == FREEZE_QUEUE_OK;
        tags[t].had_bias = by_lane && tags[t].in;
    }
    IS((here ? in_place : by_call)[ENTER](&tags[t].handle, slot), want);
    IS(want == FREEZE_QUEUE_OK && !by_lane && tags[t].handle.lent_slots != 0, false); /* none is lent to a tag that is in by the gate */
    lent += want == FREEZE_QUEUE_OK && by_lane && has_lent(t);
}

static void look_in(int t, uint32_t slot)
{
    freeze_queue_answer want = misuse(t, slot, false);
    if (want == FREEZE_QUEUE_OK) {
        want = drained() ? FREEZE_QUEUE_NOT_ENTERED : FREEZE_QUEUE_OK;
        tags[t].in = want == FREEZE_QUEUE_OK;
        tags[t].had_bias = false;
    }
    IS(freeze_queue_try_enter_frozen(&tags[t].handle, slot), want);
}

static void leave(int t, uint32_t slot, bool here, int how)
{
    freeze_queue_answer want = misuse(t, slot, true);
    if (want == FREEZE_QUEUE_OK) {
        tags[t].in = false;
        if (tags[t].had_bias)
            tags[t].had_bias = tags[t].life == epoch;
        else
            tags[t].had_bias = how == LEAVE_BIASED && depth == 0;
        tags[t].life = epoch;
        want = drained() ? FREEZE_QUEUE_LAST : FREEZE_QUEUE_OK;
    }
    IS((here ? in_place : by_call)[how](&tags[t].handle, slot), want);
}

static void look_at_limits(int t, bool here)
{
    freeze_queue_limits seen = {0, 0, 0, 0}, want = tags[t].in ? limits : seen;
    IS((here ? limits_in_place : limits_by_call)(&tags[t].handle, &seen),
       tags[t].in ? FREEZE_QUEUE_OK : tags[t].open ? FREEZE_QUEUE_ERR_TAG_NOT_ENTERED : FREEZE_QUEUE_ERR_CLOSED);
    IS((uint64_t)memcmp(&seen, &want, sizeof seen), 0);
}

/* A handle is opened, or its tag goes back; seldom it is freed. */
static void open_or_close(int t)
{
    if (!tags[t].open) {
        freeze_queue_answer answer = freeze_queue_next_tag(&queue, &tags[t].handle);
        tags[t].open = answer == FREEZE_QUEUE_OK;
        IS(tags[t].open || answer == FREEZE_QUEUE_ERR_NO_TAG, true);
    } else if (any_below(8) == 0) {
        lost += tags[t].in;
        freeze_queue_free_tag(&tags[t].handle);
        tags[t].open = tags[t].in = tags[t].had_bias = false;
    } else {
        IS(freeze_queue_give_tag_back(&queue, &tags[t].handle), tags[t].in ? FREEZE_QUEUE_ERR_ALREADY_ENTERED : FREEZE_QUEUE_OK);
        tags[t].open = tags[t].in;
        tags[t].had_bias &= tags[t].in;
    }
    IS(tags[t].open || (tags[t].handle.reserved.words[0] == NULL && tags[t].handle.lent_slots == 0), true);
}

static void freeze_or_thaw(void)
{
    uint32_t written;
    if (depth == 0 || any_below(3) == 0) {
        epoch += depth++ == 0;
        IS(freeze_queue_start_freeze(&queue, &written), drained() ? FREEZE_QUEUE_DRAINED : FREEZE_QUEUE_OK);
    } else {
        epoch += --depth == 0;
        IS(freeze_queue_thaw(&queue, &written), depth == 0 ? FREEZE_QUEUE_LIVE_AGAIN : FREEZE_QUEUE_OK);
    }
    IS(written, depth);
}

/* With chunks and without, and with each physical block. */
static freeze_queue_limits any_limits(void)
{
    return (freeze_queue_limits){64, 1 + any_below(64), any_below(2) ? any_below(100) : 0, UINT32_C(1) << any_below(16)};
}

static void set(void)
{
    const freeze_queue_limits next = any_limits();
    const freeze_queue_answer want = depth == 0 ? FREEZE_QUEUE_ERR_NOT_FROZEN : drained() ? FREEZE_QUEUE_OK : FREEZE_QUEUE_ERR_NOT_DRAINED;
    IS(freeze_queue_poll_drained(&queue), drained());
    IS(freeze_queue_set(&queue, &next), want);
    if (want == FREEZE_QUEUE_OK)
        limits = next;
}

/* A queue of fewer tags than handles, and its end, of which some tags may be freed before and some behind. */
static void make(uint32_t count)
{
    limits = any_limits();
    need(freeze_queue_new(&queue, &limits, SLOTS, count) == FREEZE_QUEUE_OK, "no queue");
    depth = lost = 0;
}

static void end(void)
{
    for (int t = 0; t < TAGS; t += 2)
        freeze_queue_free_tag(&tags[t].handle);
    freeze_queue_free(&queue);
    for (int t = 1; t < TAGS; t += 2)
        freeze_queue_free_tag(&tags[t].handle);
    memset(tags, 0, sizeof tags);
}

static void call(int t, uint32_t slot, bool here)
{
    switch (any_below(40)) {
    case 0: open_or_close(t); break;
    case 1: freeze_or_thaw(); break;
    case 2: set(); break;
    case 3: look_in(t, slot); break;
    case 4: leave(t, slot, here, LEAVE); break;
    case 5: case 6: case 7: case 8: look_at_limits(t, here); break;
    default:
        if (tags[t].in == (any_below(20) > 0))
            leave(t, slot, here, LEAVE_BIASED);
        else
            enter(t, slot, here);
    }
}

/* Many calls for each tag, one after another, since a bias lives until the next freeze. */
static void compares(long most)
{
    for (calls = 0; calls < most;) {
        make(1 + any_below(TAGS));
        for (int t = 0; t < TAGS; t++)
            open_or_close(t);
        for (int turn = 0; turn < 300; turn++) {
            const int t = (int)any_below(TAGS);
            for (uint32_t more = any_below(12); more > 0; more--, calls++)
                call(t, any_below(50) ? any_below(SLOTS) : any_below(9), any_below(2));
            while (depth > 0 && any_below(4) > 0)
                freeze_or_thaw();
        }
        end();
    }
}

/* ---- Requests beside changes ---- */

static freeze_queue_waits waits;
static long one, other; /* plain */
static long made; /* changes */
static bool is_over;

/* Waits for another change with a tag that isn't in: no freeze needs its thread. */
static void pauses(void)
{
    const long before = __atomic_load_n(&made, __ATOMIC_RELAXED);
    while (__atomic_load_n(&made, __ATOMIC_RELAXED) == before && !__atomic_load_n(&is_over, __ATOMIC_RELAXED))
        sched_yield();
}

/* Leaves in one of three ways. */
static void leaves(freeze_queue_tag *tag, uint64_t way)
{
    freeze_queue_answer answer = FREEZE_QUEUE_OK;
    if (way % 3 == 0)
        need(freeze_queue_waits_leave(&waits, tag, 0) == FREEZE_QUEUE_OK, "a leaving by the waits");
    else
        answer = (way % 3 == 1 ? in_place : by_call)[LEAVE_BIASED](tag, 0);
    need(!freeze_queue_is_refused(answer), "a leaving");
    if (freeze_queue_is_drained(answer))
        freeze_queue_waits_notify(&waits);
}

/* Enters in one of three ways. Without the waits a try may be in vain. */
static void enters(freeze_queue_tag *tag, uint64_t way)
{
    freeze_queue_answer answer = FREEZE_QUEUE_NOT_ENTERED;
    if (way % 3 != 0)
        answer = (way % 3 == 1 ? in_place : by_call)[ENTER](tag, 0);
    if (freeze_queue_is_drained(answer))
        freeze_queue_waits_notify(&waits);
    if (answer != FREEZE_QUEUE_OK)
        need(freeze_queue_waits_enter(&waits, tag, 0, NULL) == FREEZE_QUEUE_OK, "an entering");
}

static void *request(void *of)
{
    uint64_t ways = (uint64_t)(uintptr_t)of;
    freeze_queue_limits seen;
    while (!__atomic_load_n(&is_over, __ATOMIC_RELAXED)) {
        ways = ways * 6364136223846793005u + 1442695040888963407u;
        enters(of, ways >> 40);
        need(one == other, "a change beside a request");
        need((ways >> 50 & 1 ? limits_in_place : limits_by_call)(of, &seen) == FREEZE_QUEUE_OK, "no limits");
        need(seen.max == (uint32_t)(1 + one % 64), "another setting");
        leaves(of, ways >> 33);
        if (ways >> 62 == 0)
            pauses();
    }
    return NULL;
}

static uint32_t next(freeze_queue_limits *of, void *unused)
{
    (void)unused;
    one++;
    of->max = (uint32_t)(1 + one % 64);
    other = one;
    return FREEZE_QUEUE_OK;
}

static void storm(void)
{
    pthread_t threads[THREADS];
    freeze_queue_final last;
    make(THREADS);
    one = other = (long)limits.max - 1;
    is_over = false;
    need(freeze_queue_waits_init(&waits, &queue) == FREEZE_QUEUE_OK, "no waits");
    for (int i = 0; i < THREADS; i++) {
        need(freeze_queue_waits_next_tag(&waits, &tags[i].handle) == FREEZE_QUEUE_OK, "no tag");
        need(pthread_create(&threads[i], NULL, request, &tags[i].handle) == 0, "no thread");
    }
    for (long change = 0; change < changes; change++) {
        need(freeze_queue_waits_update(&waits, next, NULL, NULL) == FREEZE_QUEUE_OK, "an update");
        __atomic_store_n(&freeze_queue_waits_state_of(&waits)->unbiased_until, (uint64_t)0, __ATOMIC_RELAXED); /* biased at once */
        __atomic_store_n(&made, made + 1, __ATOMIC_RELAXED);
        for (long turn = 0; turn < change % 16; turn++)
            sched_yield();
    }
    __atomic_store_n(&is_over, true, __ATOMIC_RELAXED);
    for (int i = 0; i < THREADS; i++) {
        pthread_join(threads[i], NULL);
        need(freeze_queue_waits_give_tag_back(&waits, &tags[i].handle) == FREEZE_QUEUE_OK, "a tag doesn't go back");
    }
    need(freeze_queue_waits_end(&waits, &last, NULL) == FREEZE_QUEUE_OK, "no end");
}

int main(int argc, char **argv)
{
    const long most = argc > 1 ? atol(argv[1]) : 300000;
    int status = 1;
    changes = argc > 2 ? atol(argv[2]) : 1000;
    const pid_t child = fork();
    if (child == 0) {
        refuses_the_barrier();
        compares(most);
        storm();
        _Exit(lent != 0);
    }
    need(waitpid(child, &status, 0) == child && status == 0, "it fails without the barrier, or a lane is lent");
    compares(most);
    storm();
    printf("%s\n", lent > most / 20 ? "lanes are lent" : lent == 0 ? "no lane is lent" : "too few lanes are lent");
    return argc > 3 && lent <= most / 20;
}
