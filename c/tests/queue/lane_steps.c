/* Freezes and thaws between the steps of a biased tag that enters or leaves in place: before the call, and after each of its atomic steps.
 * Also if the call is misuse, of a tag that is in already, or out. One thread makes all steps, so each run is the same. A poll that finds no
 * drain while the queue is frozen stands for a thread that goes to sleep then: if the tag is out after the call, the call has to return an
 * answer that wakes it. With a word, lanes have to be lent, as cargo's build does: a call with no freeze between is made in place. */
#include <stdint.h>

static void between_steps(void);
#define __atomic_load_n(at, order) __extension__({ __typeof__(*(at) + 0) it = __atomic_load_n(at, order); between_steps(); it; })
#define __atomic_store_n(at, value, order) (__atomic_store_n(at, value, order), between_steps())
#include "inline.h"
#include "freeze_queue.h"
#undef __atomic_load_n
#undef __atomic_store_n

#include <stdio.h>
#include <stdlib.h>
#include <string.h>

typedef freeze_queue_answer by_slot(freeze_queue_tag *tag, uint32_t slot);

/* A point is the number of steps that the call has made. In place it makes at most three. */
enum { EVENTS = 5, LAST_POINT = 3, NEVER, SLOTS = 3, SLOT = SLOTS - 1 };

static freeze_queue queue;
static freeze_queue_tag tag;
static const char *call_name;
static uint32_t points[EVENTS]; /* when each event comes: a freeze, its thaw, the next freeze, .. */
static int event;
static uint32_t point, most_points;
static bool has_lanes, is_calling, was_frozen, sleeps, is_drained; /* the last two of the freeze that goes on */
static uint32_t freezes, depth, max;
static long runs;

static void need(bool holds, const char *what)
{
    if (holds)
        return;
    fprintf(stderr, "%s: %s. The points of the freezes and thaws:", call_name, what);
    for (int i = 0; i < EVENTS && points[i] != NEVER; i++)
        fprintf(stderr, " %u", points[i]);
    fprintf(stderr, "\n");
    exit(1);
}

/* A freeze that is drained sets other limits. */
static void polls(void)
{
    if (depth == 0)
        return;
    const bool was_drained = is_drained;
    is_drained = freeze_queue_poll_drained(&queue);
    need(is_drained || !was_drained, "a drain that ends before the thaw");
    if (is_drained && !was_drained) {
        const freeze_queue_limits limits = {64, ++max, 0, 1};
        need(freeze_queue_set(&queue, &limits) == FREEZE_QUEUE_OK, "a drained queue isn't set");
    }
    sleeps |= !is_drained;
}

static void freezes_or_thaws(bool freezes_now)
{
    if (!freezes_now) {
        need(freeze_queue_thaw(&queue, &depth) == FREEZE_QUEUE_LIVE_AGAIN, "no thaw");
        return;
    }
    need(!freeze_queue_is_refused(freeze_queue_start_freeze(&queue, &depth)), "no freeze");
    freezes++;
    was_frozen = true;
    sleeps = is_drained = false;
}

static void between_steps(void)
{
    if (!is_calling)
        return;
    polls();
    for (; event < EVENTS && points[event] == point; event++) {
        freezes_or_thaws(event % 2 == 0);
        polls();
    }
    if (point++ >= most_points)
        most_points = point;
}

/* A queue whose one tag is biased, and its lane lent. */
static void begin(void)
{
    const freeze_queue_limits limits = {64, 1, 0, 1};
    freezes = depth = 0;
    max = 1;
    was_frozen = false;
    need(freeze_queue_new(&queue, &limits, SLOTS, 1) == FREEZE_QUEUE_OK && freeze_queue_next_tag(&queue, &tag) == FREEZE_QUEUE_OK, "no queue");
    for (int i = 0; i < 2; i++)
        need(freeze_queue_try_enter(&tag, SLOT) == FREEZE_QUEUE_OK && freeze_queue_leave_biased(&tag, SLOT) == FREEZE_QUEUE_OK, "no request");
}

/* Calls, with the freezes and thaws between. In place the call makes this number of steps if none comes. */
static freeze_queue_answer result_of(by_slot *call, uint32_t steps)
{
    event = 0;
    point = 0;
    is_calling = true;
    between_steps();
    const freeze_queue_answer answer = call(&tag, SLOT);
    is_calling = false;
    need(!has_lanes || points[0] != NEVER || point == steps + 1, "other steps");
    return answer;
}

/* The tag is out: a queue that is frozen is drained, and who sleeps is told. */
static void is_out(freeze_queue_answer answer)
{
    const bool tells = freeze_queue_is_drained(answer);
    polls();
    need(depth == 0 || is_drained, "no drain");
    need(depth == 0 || tells || !sleeps, "nobody wakes who waits for the drain");
}

static void is_in(void)
{
    freeze_queue_limits seen, in_force;
    polls();
    need(depth == 0 || !is_drained, "a request in a drained queue");
    need(freeze_queue_limits_of(&tag, &seen) == FREEZE_QUEUE_OK, "no limits");
    need(freeze_queue_limits_in_force(&queue, &in_force) == FREEZE_QUEUE_OK, "no limits in force");
    need(memcmp(&seen, &in_force, sizeof seen) == 0 && seen.max == max, "other limits");
}

/* What comes behind is as if nothing had come between. */
static void end(void)
{
    freeze_queue_final last;
    need(depth == 0 || freeze_queue_thaw(&queue, &depth) == FREEZE_QUEUE_LIVE_AGAIN, "no last thaw");
    need(freeze_queue_try_enter(&tag, SLOT) == FREEZE_QUEUE_OK, "no entering after the thaw");
    is_in();
    need(freeze_queue_leave(&tag, SLOT) == FREEZE_QUEUE_OK, "no leaving after the thaw");
    need(freeze_queue_give_tag_back(&queue, &tag) == FREEZE_QUEUE_OK, "a tag that doesn't go back");
    need(freeze_queue_remove(&queue, &last) == FREEZE_QUEUE_OK && last.kills == freezes + 1, "another end");
    runs++;
}

static void leaves(by_slot *call)
{
    const freeze_queue_answer answer = result_of(call, 3);
    need(answer == FREEZE_QUEUE_OK || answer == FREEZE_QUEUE_LAST, "it doesn't leave");
    is_out(answer);
    end();
}

static void enters_and_leaves(by_slot *leave)
{
    begin();
    const freeze_queue_answer answer = result_of(freeze_queue_try_enter, 2);
    need(answer == FREEZE_QUEUE_OK || was_frozen, "a live queue that isn't entered");
    need(!freeze_queue_is_refused(answer), "an entering that is refused");
    if (answer == FREEZE_QUEUE_OK) {
        is_in();
        is_out(leave(&tag, SLOT));
    } else
        is_out(answer);
    end();
}

static void enters(void) { enters_and_leaves(freeze_queue_leave); }
static void enters_biased(void) { enters_and_leaves(freeze_queue_leave_biased); }
static void is_in_and_leaves(by_slot *leave)
{
    begin();
    need(freeze_queue_try_enter(&tag, SLOT) == FREEZE_QUEUE_OK, "no entering");
    leaves(leave);
}
static void leaves_plain(void) { is_in_and_leaves(freeze_queue_leave); }
static void leaves_biased(void) { is_in_and_leaves(freeze_queue_leave_biased); }

static void enters_twice(void)
{
    begin();
    need(freeze_queue_try_enter(&tag, SLOT) == FREEZE_QUEUE_OK, "no entering");
    need(result_of(freeze_queue_try_enter, 0) == FREEZE_QUEUE_ERR_ALREADY_ENTERED, "it enters twice");
    is_in();
    is_out(freeze_queue_leave(&tag, SLOT));
    end();
}

static void leaves_twice(void)
{
    begin();
    need(result_of(freeze_queue_leave, 1) == FREEZE_QUEUE_ERR_TAG_NOT_ENTERED, "it leaves twice");
    is_out(FREEZE_QUEUE_OK);
    end();
}

/* Each choice of points at which events from one on come. */
static void at_all_points(void (*play)(void), int from)
{
    if (from == EVENTS)
        play();
    else
        for (points[from] = from > 0 ? points[from - 1] : 0; points[from] <= NEVER; points[from]++)
            at_all_points(play, from + 1);
}

int main(int argc, char **argv)
{
    static const struct { const char *name; void (*play)(void); } plays[] = {
        {"try_enter", enters}, {"try_enter, and a leave that biases", enters_biased}, {"leave", leaves_plain}, {"leave_biased", leaves_biased},
        {"try_enter of a tag that is in", enters_twice}, {"leave of a tag that is out", leaves_twice}};
    (void)argv;
    has_lanes = argc > 1;
    for (int i = 0; i < 6; i++) {
        call_name = plays[i].name;
        at_all_points(plays[i].play, 0);
    }
    printf("%ld runs, of up to %u points\n", runs, most_points);
    return has_lanes && most_points != LAST_POINT + 1;
}
