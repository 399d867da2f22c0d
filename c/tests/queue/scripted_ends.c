/* The end of a queue, and changes of one field, by a script on one thread (scripted.h): each wake, each look, and what is
 * done under the lock. */
#define _POSIX_C_SOURCE 200809L
#include "inline.h"
#include "freeze_queue.h"
#include "readable.h"
#include "scripted.h"

#include <fcntl.h>

static freeze_queue freezer;

/* The freezer's calls, under the lock alone. */
static freeze_queue *under_lock(freeze_queue *of)
{
    need(has_lock, "a call of the freezer is made without the lock");
    return of;
}

#define freeze_queue_start_freeze(of, depth) freeze_queue_start_freeze(under_lock(of), depth)
#define freeze_queue_poll_drained(of) freeze_queue_poll_drained(under_lock(of))
#define freeze_queue_set(of, limits) freeze_queue_set(under_lock(of), limits)
#define freeze_queue_thaw(of, depth) freeze_queue_thaw(under_lock(of), depth)
#define freeze_queue_depth(of, depth) freeze_queue_depth(under_lock(of), depth)
#define freeze_queue_limits_in_force(of, limits) freeze_queue_limits_in_force(under_lock(of), limits)
#define freeze_queue_next_tag(of, tag) freeze_queue_next_tag(under_lock(of), tag)
#define freeze_queue_give_tag_back(of, tag) freeze_queue_give_tag_back(under_lock(of), tag)
#define freeze_queue_remove(of, last) freeze_queue_remove(under_lock(of), last)
#include "freeze_queue_waits.h"

static freeze_queue_waits waits;
static freeze_queue_tag tags[3];
static const struct timespec soon = {1, 0};
static freeze_queue_final last;

static uint32_t depth_now(void)
{
    uint32_t depth = UINT32_MAX;
    IS(freeze_queue_waits_depth(&waits, &depth), OK);
    return depth;
}

static freeze_queue_limits limits_now(void)
{
    freeze_queue_limits limits = {0, 0, 0, 0};
    IS(freeze_queue_waits_limits(&waits, &limits), OK);
    return limits;
}

static void begins(void)
{
    const freeze_queue_limits limits = {.hardware = 64};
    IS(freeze_queue_new(&freezer, &limits, 2, 3), OK);
    TELLS(freeze_queue_waits_init(&waits, &freezer) || freeze_queue_waits_open_events(&waits), false);
    for (int i = 0; i < 3; i++)
        IS(freeze_queue_waits_next_tag(&waits, &tags[i]), OK);
    IS(freeze_queue_waits_next_tag(&waits, &tags[0]), ERR_OPEN);
}

/* ---- What acts while another call sleeps ---- */

static void begins_a_freeze(void) { need(freeze_queue_waits_begin_freeze(&waits) < 16, "no freeze begins"); }
static void thaws(void) { IS(freeze_queue_waits_thaw(&waits), LIVE_AGAIN); }
static void thaws_one(void) { IS(freeze_queue_waits_thaw(&waits), OK); }
static void dies(void) { IS(freeze_queue_waits_mark_dying(&waits), OK); }
static void second_is_answered(void) { IS(freeze_queue_waits_enter(&waits, &tags[1], 0, NULL), ERR_DYING); }
static void first_leaves(void) { IS(freeze_queue_waits_leave(&waits, &tags[0], 0), OK); }
static void first_is_back(void) { IS(freeze_queue_waits_give_tag_back(&waits, &tags[0]), OK); }
static void second_is_back(void) { IS(freeze_queue_waits_give_tag_back(&waits, &tags[1]), OK); }
static void third_is_back(void) { IS(freeze_queue_waits_give_tag_back(&waits, &tags[2]), OK); }
static void freezes(void) { IS(freeze_queue_waits_freeze(&waits, NULL), OK); }

/* ---- A dying queue ---- */

/* Both calls that wait are answered by one mark, and later ones at once, whatever the deadline. */
static void waiting_calls_are_answered(void)
{
    begins();
    begins_a_freeze();
    TELLS(freeze_queue_waits_is_dying(&waits), false);
    acts(second_is_answered, dies, NULL);
    IS(freeze_queue_waits_enter(&waits, &tags[0], 0, NULL), ERR_DYING);
    TELLS(have_acted() && freeze_queue_waits_is_dying(&waits), true);
    TELLS(is_readable(freeze_queue_waits_live_event(&waits)) && is_readable(freeze_queue_waits_drained_event(&waits)), true);
    acts(NULL, NULL, NULL);
    IS(freeze_queue_waits_enter(&waits, &tags[2], 1, NULL), ERR_DYING);
    IS(freeze_queue_waits_enter(&waits, &tags[2], 1, &soon), ERR_DYING);
    IS(freeze_queue_waits_try_enter(&waits, &tags[2], 1), ERR_DYING);
    IS(freeze_queue_waits_try_enter(&waits, &tags[2], 9), ERR_BAD_SLOT);
}

/* The last thaw ends the freeze before it, and never the one of the mark, which stands once for two marks. */
static void stays_frozen(void)
{
    dies();
    TELLS(depth_now(), 2);
    thaws_one();
    IS(freeze_queue_waits_thaw(&waits), ERR_NOT_FROZEN);
    TELLS(depth_now(), 1);
    IS(freeze_queue_waits_freeze(&waits, &soon), OK);
    TELLS(depth_now(), 2);
    thaws_one();
    IS(freeze_queue_waits_enter(&waits, &tags[0], 0, NULL), ERR_DYING);
}

/* Another end, while one waits. */
static void ends_too(void)
{
    IS(freeze_queue_waits_end(&waits, &last, NULL), ERR_IN_USE);
    IS(freeze_queue_waits_destroy(&waits), ERR_IN_USE);
}

/* The end comes back when the last tag is back, not before. */
static void ends_with_the_last_tag(void)
{
    acts(first_is_back, second_is_back, NULL);
    IS(freeze_queue_waits_end(&waits, &last, &soon), ERR_TIMED_OUT);
    TELLS(have_acted() && freezer.is_open, true);
    acts(wakes_by_itself, ends_too, third_is_back);
    IS(freeze_queue_waits_end(&waits, &last, NULL), OK);
    TELLS(have_acted() && !freezer.is_open && locked == NULL, true);
    TELLS(last.dead && last.kills == 1 && last.releases == 1, true);
}

/* The last tag comes back while the end sleeps, and nobody has notified it by its deadline: it looks once more. */
static void third_is_back_untold(void)
{
    has_lock = true;
    IS(freeze_queue_give_tag_back(&freezer, &tags[2]), OK);
    has_lock = false;
}
static void the_end_looks_after_its_deadline(void)
{
    begins();
    first_is_back();
    second_is_back();
    acts(third_is_back_untold, NULL, NULL);
    IS(freeze_queue_waits_end(&waits, &last, &soon), OK);
    TELLS(have_acted() && !freezer.is_open, true);
}

/* A request in flight holds the end off, and so does a freeze that sleeps, also when each tag is back. */
static void first_leaves_for_good(void)
{
    first_leaves();
    first_is_back();
    second_is_back();
    third_is_back();
}
static void ends(void)
{
    IS(freeze_queue_waits_end(&waits, &last, NULL), OK);
    TELLS(last.kills == 1 && !freezer.is_open, true);
}
static void a_freeze_holds_the_end_off(void)
{
    begins();
    IS(freeze_queue_waits_enter(&waits, &tags[0], 0, NULL), OK);
    acts(freezes, first_leaves_for_good, NULL);
    ends();
    TELLS(have_acted(), true);
}

/* A freeze of a dying queue leaves both events readable, and the end closes them. */
static void a_freeze_of_a_dying_queue(void)
{
    begins();
    const int event = freeze_queue_waits_live_event(&waits);
    dies();
    IS(freeze_queue_waits_begin_freeze(&waits), DRAINED);
    TELLS(is_readable(freeze_queue_waits_live_event(&waits)) && is_readable(freeze_queue_waits_drained_event(&waits)), true);
    thaws_one();
    first_is_back();
    second_is_back();
    third_is_back();
    ends();
    TELLS(fcntl(event, F_GETFD) == -1, true);
}

/* As many freezes as there may be: the mark is refused, and nobody is told that the queue dies. */
static void the_greatest_depth(void)
{
    begins();
    for (uint32_t depth = 0; depth < FREEZE_QUEUE_MOST_DEPTH; depth++)
        begins_a_freeze();
    acts(NULL, NULL, NULL);
    IS(freeze_queue_waits_mark_dying(&waits), ERR_DEPTH_FULL);
    IS(freeze_queue_waits_end(&waits, &last, NULL), ERR_DEPTH_FULL);
    TELLS(fcntl(freeze_queue_waits_live_event(&waits), F_GETFD), FD_CLOEXEC); /* still open */
    TELLS(freeze_queue_waits_is_dying(&waits), false);
    IS(freeze_queue_waits_enter(&waits, &tags[0], 0, &soon), ERR_TIMED_OUT);
    for (uint32_t depth = 1; depth < FREEZE_QUEUE_MOST_DEPTH; depth++)
        thaws_one();
    thaws();
}

/* ---- Changes of one field ---- */

static uint32_t doubles_chunk(freeze_queue_limits *limits, void *argument)
{
    need(!has_lock, "a function is called under the lock");
    limits->chunk = limits->chunk ? 2 * limits->chunk : 1;
    return *(uint32_t *)argument;
}

static uint32_t adds_to_max(freeze_queue_limits *limits, void *argument)
{
    (void)argument;
    limits->max++;
    return FREEZE_QUEUE_OK;
}

static uint32_t answer_of_all = FREEZE_QUEUE_OK;

static void ends_the_turn(void)
{
    has_lock = true;
    freeze_queue_waits_ends_turn(IN_WAITS);
    has_lock = false;
}

static void fields_change(void)
{
    uint32_t refuses = 77;
    acts(NULL, NULL, NULL);
    IS(freeze_queue_waits_update(&waits, doubles_chunk, &answer_of_all, NULL), OK);
    TELLS(limits_now().chunk == 1 && limits_now().max == 64 && depth_now() == 0, true);
    TELLS(freeze_queue_waits_update(&waits, doubles_chunk, &refuses, NULL), 77);
    TELLS(limits_now().chunk == 1 && depth_now() == 0, true);
    IS(freeze_queue_waits_update(&waits, adds_to_max, NULL, NULL), ERR_ABOVE_HARDWARE);
    TELLS(limits_now().max == 64 && depth_now() == 0, true);
    IS(freeze_queue_waits_enter(&waits, &tags[0], 0, NULL), OK);
    IS(freeze_queue_waits_update(&waits, doubles_chunk, &answer_of_all, &soon), ERR_TIMED_OUT);
    TELLS(limits_now().chunk == 1 && depth_now() == 0, true);
}

/* What other threads get while the function of an update runs: a change and an update wait for their turn, a set is done, and
 * then the function is called again. */
static int runs;
static uint32_t others_go_on(freeze_queue_limits *limits, void *argument)
{
    freeze_queue_limits other = {.hardware = 64, .max = 10};
    if (runs++ > 0)
        return doubles_chunk(limits, argument);
    who = 1;
    IS(freeze_queue_waits_change(&waits, &other, &soon), ERR_TIMED_OUT);
    IS(freeze_queue_waits_update(&waits, adds_to_max, NULL, &soon), ERR_TIMED_OUT);
    IS(freeze_queue_waits_try_enter(&waits, &tags[1], 0), NOT_ENTERED);
    IS(freeze_queue_waits_enter(&waits, &tags[1], 0, &soon), ERR_TIMED_OUT);
    TELLS(freeze_queue_waits_is_drained(&waits), true);
    other.max = 65;
    IS(freeze_queue_waits_set(&waits, &other), ERR_ABOVE_HARDWARE);
    other.max = 11;
    IS(freeze_queue_waits_set(&waits, &other), OK);
    IS(freeze_queue_waits_destroy(&waits), ERR_IN_USE);
    who = 0;
    limits->max = 63; /* of a call whose limits were set anew: forgotten */
    return FREEZE_QUEUE_OK;
}
static void others_go_on_beside_a_function(void)
{
    acts(first_leaves, NULL, NULL);
    IS(freeze_queue_waits_update(&waits, others_go_on, &answer_of_all, NULL), OK);
    TELLS(have_acted() && runs == 2, true);
    TELLS(limits_now().max == 11 && limits_now().chunk == 1 && limits_now().physical == 1, true);
    TELLS(depth_now() == 0 && is_readable(freeze_queue_waits_live_event(&waits)), true);
    IS(freeze_queue_waits_update(&waits, doubles_chunk, &answer_of_all, NULL), OK);
    IS(freeze_queue_waits_update(&waits, doubles_chunk, &answer_of_all, NULL), OK);
    TELLS(limits_now().chunk, 4);
}

/* A function whose limits are set anew by another thread isn't called again after the deadline. */
static uint32_t is_set_anew(freeze_queue_limits *limits, void *argument)
{
    who = 1;
    IS(freeze_queue_waits_set(&waits, limits), OK);
    who = 0;
    return *(uint32_t *)argument;
}
static void a_function_is_set_anew_for_a_while(void)
{
    const struct timespec passed = {0, 1};
    IS(freeze_queue_waits_update(&waits, is_set_anew, &answer_of_all, &passed), ERR_TIMED_OUT);
    TELLS(limits_now().chunk == 4 && depth_now() == 0, true);
}

/* What the function of an update may not do, since it would wait for itself; and numbers that it may not return. */
static uint32_t waits_for_itself(freeze_queue_limits *limits, void *argument)
{
    freeze_queue_final final;
    IS(freeze_queue_waits_update(&waits, doubles_chunk, argument, NULL), ERR_IN_UPDATE);
    IS(freeze_queue_waits_change(&waits, limits, NULL), ERR_IN_UPDATE);
    IS(freeze_queue_waits_set(&waits, limits), ERR_IN_UPDATE);
    IS(freeze_queue_waits_end(&waits, &final, NULL), ERR_IN_UPDATE);
    TELLS(depth_now() == 1 && limits_now().chunk == 4 && !freeze_queue_waits_is_dying(&waits), true);
    limits->max = 9;
    return FREEZE_QUEUE_OK;
}
static void functions_are_refused(void)
{
    IS(freeze_queue_waits_update(&waits, waits_for_itself, &answer_of_all, NULL), OK);
    TELLS(limits_now().max, 9);
    for (uint32_t answer = 1; answer < 18; answer++) {
        uint32_t want = answer < 16 ? (uint32_t)FREEZE_QUEUE_ERR_BAD_RETURN : answer;
        TELLS(freeze_queue_waits_update(&waits, doubles_chunk, &answer, NULL), want);
        TELLS(limits_now().chunk == 4 && depth_now() == 0, true);
    }
}

/* Two updates wait for their turn, and each gets it. */
static void second_updates(void)
{
    who = 1;
    IS(freeze_queue_waits_update(&waits, adds_to_max, NULL, &soon), ERR_TIMED_OUT);
    who = 0;
}
static void updates_wait_for_their_turn(void)
{
    IS(freeze_queue_waits_enter(&waits, &tags[0], 0, NULL), OK);
    acts(second_updates, first_leaves, NULL);
    IS(freeze_queue_waits_update(&waits, adds_to_max, NULL, NULL), OK);
    TELLS(limits_now().max == 10 && depth_now() == 0, true);
    IN_WAITS->is_changing = true; /* another has the turn */
    acts(NULL, NULL, NULL);
    IS(freeze_queue_waits_update(&waits, adds_to_max, NULL, &soon), ERR_TIMED_OUT);
    IS(freeze_queue_waits_change(&waits, &(freeze_queue_limits){.hardware = 64}, &soon), ERR_TIMED_OUT);
    TELLS(depth_now() == 0 && IN_WAITS->is_changing, true);
    acts(wakes_by_itself, ends_the_turn, NULL);
    IS(freeze_queue_waits_update(&waits, adds_to_max, NULL, NULL), OK);
    TELLS(have_acted() && limits_now().max == 11 && !IN_WAITS->is_changing, true);
}

/* A dying queue changes as a live one, also by a call that sleeps while the queue is marked. */
static void a_dying_queue_changes(void)
{
    const freeze_queue_limits limits = {.hardware = 64, .max = 5, .chunk = 8};
    uint32_t refuses = 77;
    IS(freeze_queue_waits_enter(&waits, &tags[0], 0, NULL), OK);
    acts(dies, first_leaves, NULL);
    IS(freeze_queue_waits_change(&waits, &limits, NULL), OK);
    TELLS(have_acted() && limits_now().max == 5 && depth_now() == 1, true);
    IS(freeze_queue_waits_update(&waits, doubles_chunk, &answer_of_all, NULL), OK);
    TELLS(limits_now().chunk == 16 && depth_now() == 1, true);
    TELLS(freeze_queue_waits_update(&waits, doubles_chunk, &refuses, NULL), 77);
    TELLS(limits_now().chunk == 16 && depth_now() == 1, true);
}

int main(void)
{
    waiting_calls_are_answered();
    stays_frozen();
    ends_with_the_last_tag();
    the_end_looks_after_its_deadline();
    a_freeze_holds_the_end_off();
    a_freeze_of_a_dying_queue();
    the_greatest_depth();
    fields_change();
    others_go_on_beside_a_function();
    a_function_is_set_anew_for_a_while();
    functions_are_refused();
    updates_wait_for_their_turn();
    a_dying_queue_changes();
    for (int i = 0; i < 3; i++)
        IS(freeze_queue_waits_give_tag_back(&waits, &tags[i]), OK);
    IS(freeze_queue_waits_end(&waits, &last, NULL), OK);
    return told_at_the_end();
}
