/* Waiting at a queue, call by call: deadlines that pass and that don't, nested freezes by several threads, two queues
 * frozen together, and the events. What is waited for comes about 20 milliseconds later, on another thread. */
#define _POSIX_C_SOURCE 200809L
#include "inline.h"
#include "freeze_queue_waits.h"
#include "../is.h"
#include "readable.h"

#include <stdio.h>
#include <stdlib.h>

static const uint64_t SOON = 20000000, LONG = 600000000000; /* nanoseconds: LONG ends a wait whose wake is lost */

#define IS(call, want) is(#call, call, FREEZE_QUEUE_##want, __LINE__)

static freeze_queue_limits limits = {.hardware = 64, .max = 8, .chunk = 0, .physical = 1};

static struct queue {
    freeze_queue freezer;
    freeze_queue_waits waits;
    freeze_queue_tag tags[3];
} queues[2];

static void make(struct queue *queue)
{
    IS(freeze_queue_new(&queue->freezer, &limits, 3, 3), OK);
    TELLS((uint64_t)freeze_queue_waits_init(&queue->waits, &queue->freezer), 0);
    for (int i = 0; i < 3; i++)
        IS(freeze_queue_next_tag(&queue->freezer, &queue->tags[i]), OK);
}

static void end(struct queue *queue)
{
    freeze_queue_final last;
    for (int i = 0; i < 3; i++)
        IS(freeze_queue_give_tag_back(&queue->freezer, &queue->tags[i]), OK);
    IS(freeze_queue_remove(&queue->freezer, &last), OK);
    freeze_queue_waits_destroy(&queue->waits);
}

/* Something that another thread does at a time. */
struct later {
    pthread_t thread;
    uint32_t (*act)(struct queue *);
    struct queue *queue;
    struct timespec at;
    uint32_t answer;
};

static void *act_later(void *of)
{
    struct later *later = of;
    while (clock_nanosleep(CLOCK_MONOTONIC, TIMER_ABSTIME, &later->at, NULL)) {}
    later->answer = later->act(later->queue);
    return NULL;
}

static void begin(struct later *later, struct queue *queue, uint32_t (*act)(struct queue *), uint64_t nanoseconds)
{
    *later = (struct later){.act = act, .queue = queue, .at = freeze_queue_deadline(nanoseconds)};
    if (pthread_create(&later->thread, NULL, act_later, later))
        exit(2);
}

static uint32_t answer_of(struct later *later)
{
    pthread_join(later->thread, NULL);
    return later->answer;
}

static uint32_t first_leaves(struct queue *queue) { return freeze_queue_waits_leave(&queue->waits, &queue->tags[0], 1); }
static uint32_t thaws(struct queue *queue) { return freeze_queue_waits_thaw(&queue->waits); }
static uint32_t freezes(struct queue *queue) { return freeze_queue_waits_freeze(&queue->waits, NULL); }
static uint32_t second_enters(struct queue *queue)
{
    return freeze_queue_waits_enter(&queue->waits, &queue->tags[1], 1, NULL);
}

static bool has_passed(const struct timespec *deadline)
{
    struct timespec now = freeze_queue_deadline(0);
    return now.tv_sec > deadline->tv_sec || (now.tv_sec == deadline->tv_sec && now.tv_nsec >= deadline->tv_nsec);
}

static uint32_t depth_of(struct queue *queue)
{
    uint32_t depth = UINT32_MAX;
    IS(freeze_queue_waits_depth(&queue->waits, &depth), OK);
    return depth;
}

static void freezes_with_deadlines(struct queue *queue)
{
    struct later later;
    struct timespec soon = freeze_queue_deadline(SOON), past = {0, 0};
    IS(freeze_queue_waits_freeze(&queue->waits, &past), OK); /* nobody is in */
    IS(freeze_queue_waits_thaw(&queue->waits), LIVE_AGAIN);
    IS(freeze_queue_waits_thaw(&queue->waits), ERR_NOT_FROZEN);
    IS(freeze_queue_waits_enter(&queue->waits, &queue->tags[0], 0, &past), OK);
    IS(freeze_queue_waits_enter(&queue->waits, &queue->tags[0], 0, NULL), ERR_ALREADY_ENTERED);
    IS(freeze_queue_waits_enter(&queue->waits, &queue->tags[0], 9, NULL), ERR_BAD_SLOT);
    IS(freeze_queue_waits_freeze(&queue->waits, &past), ERR_TIMED_OUT);
    IS(freeze_queue_waits_freeze(&queue->waits, &soon), ERR_TIMED_OUT);
    TELLS(has_passed(&soon), true);
    TELLS(depth_of(queue), 0);
    IS(freeze_queue_waits_enter(&queue->waits, &queue->tags[1], 1, &past), OK); /* live again */
    IS(freeze_queue_waits_leave(&queue->waits, &queue->tags[1], 1), OK);
    begin(&later, queue, first_leaves, SOON);
    struct timespec late = freeze_queue_deadline(LONG);
    IS(freeze_queue_waits_freeze(&queue->waits, &late), OK);
    IS(answer_of(&later), OK);
    TELLS(has_passed(&late), false);
    IS(freeze_queue_waits_leave(&queue->waits, &queue->tags[0], 1), ERR_TAG_NOT_ENTERED);
}

/* The last tag leaves before the deadline, under the lock, and who told of it would come after the deadline: whoever waits
 * looks once more, and finds the queue drained. */
static uint32_t first_leaves_untold(struct queue *queue)
{
    struct timespec past_it = freeze_queue_deadline(2 * SOON);
    freeze_queue_waits_lock(freeze_queue_waits_state_of(&queue->waits));
    uint32_t answer = freeze_queue_leave(&queue->tags[0], 0);
    while (clock_nanosleep(CLOCK_MONOTONIC, TIMER_ABSTIME, &past_it, NULL)) {}
    freeze_queue_waits_unlock(freeze_queue_waits_state_of(&queue->waits));
    return answer;
}

static void looks_after_the_deadline(struct queue *queue)
{
    struct later later;
    struct timespec deadline = freeze_queue_deadline(SOON);
    IS(freeze_queue_waits_enter(&queue->waits, &queue->tags[0], 0, NULL), OK);
    begin(&later, queue, first_leaves_untold, SOON / 2);
    uint32_t answer = freeze_queue_waits_freeze(&queue->waits, &deadline);
    uint32_t left = answer_of(&later);
    if (left == FREEZE_QUEUE_LAST) /* where the leaving came too late for the freeze, it says nothing */
        TELLS(answer, FREEZE_QUEUE_OK);
    if (answer == FREEZE_QUEUE_OK)
        IS(freeze_queue_waits_thaw(&queue->waits), LIVE_AGAIN);
    TELLS(depth_of(queue), 0);
}

/* Of a queue that is frozen. */
static void enters_with_deadlines(struct queue *queue)
{
    struct later later, other;
    struct timespec soon = freeze_queue_deadline(SOON);
    IS(freeze_queue_waits_try_enter(&queue->waits, &queue->tags[0], 0), NOT_ENTERED);
    IS(freeze_queue_waits_enter(&queue->waits, &queue->tags[0], 0, &soon), ERR_TIMED_OUT);
    TELLS(has_passed(&soon), true);
    IS(freeze_queue_waits_leave(&queue->waits, &queue->tags[0], 0), ERR_TAG_NOT_ENTERED);
    begin(&later, queue, thaws, SOON);
    begin(&other, queue, second_enters, 0);
    struct timespec late = freeze_queue_deadline(LONG);
    IS(freeze_queue_waits_enter(&queue->waits, &queue->tags[0], 0, &late), OK);
    IS(answer_of(&later), LIVE_AGAIN);
    IS(answer_of(&other), OK); /* both were woken */
    TELLS(has_passed(&late), false);
    IS(freeze_queue_waits_leave(&queue->waits, &queue->tags[1], 0), OK);
}

/* Three freezes with a tag in: two wait, and one is taken back. A thread that waits to enter is let in by the last. */
static void nested(struct queue *queue)
{
    struct later first, second, leaves, enters;
    begin(&first, queue, freezes, 0);
    begin(&second, queue, freezes, 0);
    while (depth_of(queue) < 2) {}
    struct timespec soon = freeze_queue_deadline(SOON);
    IS(freeze_queue_waits_freeze(&queue->waits, &soon), ERR_TIMED_OUT);
    TELLS(depth_of(queue), 2);
    begin(&enters, queue, second_enters, 0);
    begin(&leaves, queue, first_leaves, SOON);
    IS(answer_of(&first), OK);
    IS(answer_of(&second), OK);
    IS(answer_of(&leaves), OK);
    TELLS(freeze_queue_waits_is_drained(&queue->waits), true);
    IS(freeze_queue_waits_thaw(&queue->waits), OK);
    TELLS(freeze_queue_waits_is_drained(&queue->waits), true);
    IS(freeze_queue_waits_thaw(&queue->waits), LIVE_AGAIN);
    IS(answer_of(&enters), OK);
    TELLS(freeze_queue_waits_is_drained(&queue->waits), false);
    /* A freeze that is taken back lets those enter who waited meanwhile. */
    struct timespec deadline = freeze_queue_deadline(SOON);
    IS(freeze_queue_waits_leave(&queue->waits, &queue->tags[1], 0), OK);
    IS(freeze_queue_waits_enter(&queue->waits, &queue->tags[0], 0, NULL), OK);
    begin(&enters, queue, second_enters, SOON / 2);
    IS(freeze_queue_waits_freeze(&queue->waits, &deadline), ERR_TIMED_OUT);
    IS(answer_of(&enters), OK);
    IS(freeze_queue_waits_leave(&queue->waits, &queue->tags[0], 0), OK);
    IS(freeze_queue_waits_leave(&queue->waits, &queue->tags[1], 0), OK);
}

/* The calls of waits whose queue was removed. */
static void closed(void)
{
    struct queue none = {.freezer = {0}};
    freeze_queue_final last;
    uint32_t depth = 7;
    freeze_queue_limits told = {7, 7, 7, 7};
    IS(freeze_queue_waits_init(&none.waits, &none.freezer), ERR_CLOSED);
    IS(freeze_queue_new(&none.freezer, &limits, 1, 1), OK);
    IS(freeze_queue_waits_init(&none.waits, &none.freezer), OK);
    IS(freeze_queue_remove(&none.freezer, &last), OK);
    IS(freeze_queue_waits_enter(&none.waits, &none.tags[0], 0, NULL), ERR_CLOSED);
    IS(freeze_queue_waits_leave(&none.waits, &none.tags[0], 0), ERR_CLOSED);
    IS(freeze_queue_waits_freeze(&none.waits, NULL), ERR_CLOSED);
    IS(freeze_queue_waits_begin_freeze(&none.waits), ERR_CLOSED);
    IS(freeze_queue_waits_set(&none.waits, &limits), ERR_CLOSED);
    IS(freeze_queue_waits_thaw(&none.waits), ERR_CLOSED);
    IS(freeze_queue_waits_change(&none.waits, &limits, NULL), ERR_CLOSED);
    IS(freeze_queue_waits_mode(&none.waits, 0), ERR_CLOSED);
    IS(freeze_queue_waits_depth(&none.waits, &depth), ERR_CLOSED);
    IS(freeze_queue_waits_limits(&none.waits, &told), ERR_CLOSED);
    TELLS(freeze_queue_waits_is_drained(&none.waits), false);
    TELLS(depth == 7 && told.max == 7, true);
    IS(freeze_queue_waits_destroy(&none.waits), OK);
}

static void changes(struct queue *queue)
{
    freeze_queue_limits other = limits, told;
    struct timespec past = {0, 0};
    other.max = 65;
    IS(freeze_queue_waits_enter(&queue->waits, &queue->tags[0], 0, NULL), OK);
    IS(freeze_queue_waits_change(&queue->waits, &other, NULL), ERR_ABOVE_HARDWARE); /* at once, though a tag is in */
    other = (freeze_queue_limits){.hardware = 65, .max = 1, .chunk = 0, .physical = 1};
    IS(freeze_queue_waits_change(&queue->waits, &other, NULL), ERR_OTHER_HARDWARE);
    other.hardware = 64;
    IS(freeze_queue_waits_set(&queue->waits, &other), ERR_NOT_FROZEN);
    IS(freeze_queue_waits_mode(&queue->waits, 2), ERR_BAD_MODE);
    IS(freeze_queue_waits_mode(&queue->waits, FREEZE_QUEUE_MODE_ATOMIC), OK);
    IS(freeze_queue_waits_change(&queue->waits, &other, &past), ERR_TIMED_OUT);
    IS(freeze_queue_limits_of(&queue->tags[0], &told), OK);
    TELLS(told.max, 8);
    IS(freeze_queue_waits_begin_freeze(&queue->waits), OK);
    IS(freeze_queue_waits_set(&queue->waits, &other), ERR_NOT_DRAINED);
    IS(freeze_queue_waits_thaw(&queue->waits), LIVE_AGAIN);
    IS(freeze_queue_waits_leave(&queue->waits, &queue->tags[0], 0), OK);
    IS(freeze_queue_waits_change(&queue->waits, &other, NULL), OK);
    IS(freeze_queue_waits_limits(&queue->waits, &told), OK);
    TELLS(told.max, 1);
    IS(freeze_queue_waits_enter(&queue->waits, &queue->tags[0], 0, NULL), OK);
    IS(freeze_queue_limits_of(&queue->tags[0], &told), OK);
    TELLS(told.max, 1);
    IS(freeze_queue_waits_leave(&queue->waits, &queue->tags[0], 0), OK);
    TELLS(depth_of(queue), 0);
}

#if defined(__linux__)
static void events(struct queue *queue)
{
    freeze_queue_waits *waits = &queue->waits;
    struct later later;
    TELLS((uint64_t)freeze_queue_waits_open_events(waits), 0);
    TELLS(is_readable(freeze_queue_waits_live_event(waits)), true);
    TELLS(is_readable(freeze_queue_waits_drained_event(waits)), false);
    IS(freeze_queue_waits_enter(waits, &queue->tags[0], 0, NULL), OK);
    IS(freeze_queue_waits_begin_freeze(waits), OK);
    TELLS(is_readable(freeze_queue_waits_live_event(waits)), false);
    TELLS(is_readable(freeze_queue_waits_drained_event(waits)), false);
    IS(freeze_queue_waits_try_enter(waits, &queue->tags[1], 0), NOT_ENTERED);
    begin(&later, queue, first_leaves, SOON);
    TELLS(is_readable_within(freeze_queue_waits_drained_event(waits), LONG / 1000000), true);
    IS(answer_of(&later), OK);
    TELLS(freeze_queue_waits_is_drained(waits), true);
    IS(freeze_queue_waits_begin_freeze(waits), DRAINED);
    IS(freeze_queue_waits_thaw(waits), OK);
    TELLS(is_readable(freeze_queue_waits_drained_event(waits)), true);
    TELLS(is_readable(freeze_queue_waits_live_event(waits)), false);
    begin(&later, queue, thaws, SOON);
    TELLS(is_readable_within(freeze_queue_waits_live_event(waits), LONG / 1000000), true);
    IS(answer_of(&later), LIVE_AGAIN);
    TELLS(is_readable(freeze_queue_waits_drained_event(waits)), false);
    IS(freeze_queue_waits_try_enter(waits, &queue->tags[1], 0), OK);
    IS(freeze_queue_waits_leave(waits, &queue->tags[1], 0), OK);
}
#endif

/* Requests that enter both queues, in their order, are in one setting of both: who changes both freezes the first, and then
 * the second. */
static struct requester { pthread_t thread; uint32_t number; long mixed; } requesters[3];
static bool over;

static void *request(void *of)
{
    struct requester *me = of;
    freeze_queue_limits of_first, of_second;
    while (!__atomic_load_n(&over, __ATOMIC_SEQ_CST)) {
        for (int q = 0; q < 2; q++)
            if (freeze_queue_waits_enter(&queues[q].waits, &queues[q].tags[me->number], me->number, NULL))
                abort();
        if (freeze_queue_limits_of(&queues[0].tags[me->number], &of_first) ||
            freeze_queue_limits_of(&queues[1].tags[me->number], &of_second))
            abort();
        me->mixed += of_first.max != of_second.max;
        for (int q = 1; q >= 0; q--)
            if (freeze_queue_waits_leave(&queues[q].waits, &queues[q].tags[me->number], me->number))
                abort();
    }
    return NULL;
}

static void two_together(long times)
{
    for (uint32_t i = 0; i < 3; i++) {
        requesters[i].number = i;
        if (pthread_create(&requesters[i].thread, NULL, request, &requesters[i]))
            exit(2);
    }
    for (long i = 0; i < times; i++) {
        limits.max = 1 + (uint32_t)i % 64;
        for (int q = 0; q < 2; q++)
            IS(freeze_queue_waits_freeze(&queues[q].waits, NULL), OK);
        for (int q = 0; q < 2; q++)
            IS(freeze_queue_waits_set(&queues[q].waits, &limits), OK);
        for (int q = 0; q < 2; q++)
            IS(freeze_queue_waits_thaw(&queues[q].waits), LIVE_AGAIN);
    }
    __atomic_store_n(&over, true, __ATOMIC_SEQ_CST);
    for (uint32_t i = 0; i < 3; i++) {
        pthread_join(requesters[i].thread, NULL);
        TELLS((uint64_t)requesters[i].mixed, 0);
    }
}

int main(int argc, char **argv)
{
    for (int q = 0; q < 2; q++)
        make(&queues[q]);
    freezes_with_deadlines(&queues[0]);
    enters_with_deadlines(&queues[0]);
    nested(&queues[0]);
    looks_after_the_deadline(&queues[0]);
    closed();
    changes(&queues[0]);
#if defined(__linux__)
    events(&queues[0]);
#endif
    limits.max = 8;
    IS(freeze_queue_waits_change(&queues[0].waits, &limits, NULL), OK); /* as the second has them */
    two_together(argc > 1 ? atol(argv[1]) : 1000);
    for (int q = 0; q < 2; q++)
        end(&queues[q]);
    printf("%s\n", failures ? "FAILED" : "as waited for");
    return failures != 0;
}
