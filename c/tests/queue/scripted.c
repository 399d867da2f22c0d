/* The waits of a queue by a script, on one thread (scripted.h): each wake, each look before and after a sleep, the events
 * after each call, and that the freezer's calls are made under the lock, while who enters a live queue or leaves it takes
 * none. */
#define _POSIX_C_SOURCE 200809L
#include "inline.h"
#include "freeze_queue.h"
#include "own_calls.h"
#include "readable.h"
#include "scripted.h"

#include <sys/eventfd.h>

static freeze_queue freezer;
static freeze_queue_tag tags[3];
static long freezes;        /* how often one was begun */
static uint32_t set_refuses; /* what the next set answers, in place of setting; 0: it sets */
static bool is_last;        /* the next try that is refused lets the first tag leave before it answers */
static uint32_t tried_on;   /* the slot of the last try */
static uint32_t in_vain;    /* how many tries are refused while the queue is live, as of a tag whose own queue is frozen */

/* The freezer's calls, under the lock alone. */
static freeze_queue *under_lock(freeze_queue *of, long freeze)
{
    need(has_lock, "a call of the freezer is made without the lock");
    freezes += freeze;
    return of;
}

static uint32_t sets_or_not(freeze_queue *of, const freeze_queue_limits *limits)
{
    uint32_t refused = set_refuses;
    set_refuses = 0;
    return refused ? refused : freeze_queue_set(of, limits);
}

/* What of both is told LAST is told to the try. */
static uint32_t tries(freeze_queue_tag *tag, uint32_t slot)
{
    if (in_vain > 0) {
        in_vain--;
        return FREEZE_QUEUE_NOT_ENTERED;
    }
    uint32_t answer = freeze_queue_try_enter(tag, slot);
    tried_on = slot;
    if (answer != FREEZE_QUEUE_NOT_ENTERED || !is_last)
        return answer;
    is_last = false;
    need(freeze_queue_leave(&tags[0], 0) == FREEZE_QUEUE_LAST, "the first tag isn't the last");
    return FREEZE_QUEUE_NOT_ENTERED_LAST;
}

static long events_set; /* how often an event was made readable, or not */
#define eventfd_write(event, count) (events_set++, eventfd_write(event, count))
#define eventfd_read(event, count) (events_set++, eventfd_read(event, count))
#define freeze_queue_start_freeze(of, depth) freeze_queue_start_freeze(under_lock(of, 1), depth)
#define freeze_queue_poll_drained(of) freeze_queue_poll_drained(under_lock(of, 0))
#define freeze_queue_set(of, limits) sets_or_not(under_lock(of, 0), limits)
#define freeze_queue_thaw(of, depth) freeze_queue_thaw(under_lock(of, 0), depth)
#define freeze_queue_mode(of, mode) freeze_queue_mode(under_lock(of, 0), mode)
#define freeze_queue_depth(of, depth) freeze_queue_depth(under_lock(of, 0), depth)
#define freeze_queue_limits_in_force(of, limits) freeze_queue_limits_in_force(under_lock(of, 0), limits)
#define freeze_queue_try_enter tries
#include "freeze_queue_waits.h"

static freeze_queue_waits waits;
static const struct timespec soon = {1, 0};
static freeze_queue_limits limits = {.hardware = 64, .max = 8, .chunk = 0, .physical = 1};

/* What both events show. */
static void shows(bool live, bool drained, int line)
{
    is("the live event", is_readable(freeze_queue_waits_live_event(&waits)), live, line);
    is("the drained event", is_readable(freeze_queue_waits_drained_event(&waits)), drained, line);
}

#define SHOWS(live, drained) shows(live, drained, __LINE__)

static uint32_t depth_now(void)
{
    uint32_t depth = UINT32_MAX;
    IS(freeze_queue_waits_depth(&waits, &depth), OK);
    return depth;
}

/* ---- What acts while somebody sleeps ---- */

static void leaves(int tag, bool is_the_last)
{
    long before = locks;
    IS(freeze_queue_waits_leave(&waits, &tags[tag], 0), OK);
    TELLS(locks - before, is_the_last);
}
static void first_leaves(void)
{
    SHOWS(false, false);
    leaves(0, false);
    SHOWS(false, false);
}
static void first_leaves_last(void) { leaves(0, true); }
static void second_leaves_last(void) { leaves(1, true); }
static void second_enters(void)
{
    IS(freeze_queue_waits_enter(&waits, &tags[1], 0, NULL), OK);
}
static void third_is_refused(void) { IS(freeze_queue_waits_try_enter(&waits, &tags[2], 0), NOT_ENTERED); }
static void thaws(void) { IS(freeze_queue_waits_thaw(&waits), LIVE_AGAIN); }
static void thaws_one_of_two(void)
{
    SHOWS(false, true);
    IS(freeze_queue_waits_thaw(&waits), OK);
    SHOWS(false, true);
}
static void begins_a_freeze(void) { IS(freeze_queue_waits_begin_freeze(&waits), DRAINED); }
static void thaws_and_freezes(void)
{
    thaws();
    SHOWS(true, false);
    begins_a_freeze();
    SHOWS(false, true);
}
static void freezes_too(void)
{
    IS(freeze_queue_waits_freeze(&waits, NULL), OK);
    TELLS(depth_now(), 2);
}
static void thaws_untold(void)
{
    uint32_t depth;
    has_lock = true;
    IS(freeze_queue_thaw(&freezer, &depth), LIVE_AGAIN);
    has_lock = false;
}
static void first_leaves_untold(void) { IS(freeze_queue_leave(&tags[0], 0), LAST); }

/* ---- Who waits ---- */

/* The queue is live, before and after. */
static void nobody_waits(void)
{
    long before = locks;
    IS(freeze_queue_waits_enter(&waits, &tags[0], 0, NULL), OK);
    IS(freeze_queue_waits_try_enter(&waits, &tags[1], 1), OK);
    IS(freeze_queue_waits_leave(&waits, &tags[0], 0), OK);
    IS(freeze_queue_waits_leave(&waits, &tags[1], 1), OK);
    IS(freeze_queue_waits_leave(&waits, &tags[1], 1), ERR_TAG_NOT_ENTERED);
    IS(freeze_queue_waits_enter(&waits, &tags[0], 9, NULL), ERR_BAD_SLOT);
    TELLS(locks - before, 0);
    SHOWS(true, false);
}

static void waits_for_the_drain(void)
{
    IS(freeze_queue_waits_enter(&waits, &tags[0], 0, NULL), OK);
    IS(freeze_queue_waits_enter(&waits, &tags[1], 0, NULL), OK);
    acts(wakes_by_itself, first_leaves, second_leaves_last);
    IS(freeze_queue_waits_freeze(&waits, NULL), OK);
    TELLS(have_acted() && freeze_queue_waits_is_drained(&waits), true);
    SHOWS(false, true);
    acts(thaws, NULL, NULL);
    second_enters();
    SHOWS(true, false);
    acts(wakes_by_itself, second_leaves_last, NULL);
    IS(freeze_queue_waits_freeze(&waits, &soon), OK);
    acts(wakes_by_itself, thaws, NULL);
    IS(freeze_queue_waits_enter(&waits, &tags[1], 0, &soon), OK);
    acts(NULL, NULL, NULL);
    leaves(1, false);
    /* A refused try is the last. */
    IS(freeze_queue_waits_enter(&waits, &tags[0], 0, NULL), OK);
    is_last = true;
    acts(third_is_refused, NULL, NULL);
    IS(freeze_queue_waits_freeze(&waits, NULL), OK);
    thaws();
}

/* A thaw right after the last leave: the leave has set the events by then, under the lock. */
static void thaws_after_the_drain(void)
{
    IS(freeze_queue_waits_enter(&waits, &tags[0], 0, NULL), OK);
    IS(freeze_queue_waits_begin_freeze(&waits), OK);
    after_unlock = thaws;
    IS(freeze_queue_waits_leave(&waits, &tags[0], 0), OK);
    SHOWS(true, false);
}

/* The last leaves while another call has the lock: that call sets the events as it gives up the lock. */
static void leaves_beside_a_call(void)
{
    IS(freeze_queue_waits_enter(&waits, &tags[0], 0, NULL), OK);
    IS(freeze_queue_waits_begin_freeze(&waits), OK);
    freeze_queue_waits_lock(IN_WAITS);
    is_others = true;
    IS(freeze_queue_waits_leave(&waits, &tags[0], 0), OK);
    SHOWS(false, false);
    freeze_queue_waits_unlock(IN_WAITS);
    is_others = false;
    SHOWS(false, true);
    thaws();
}

/* Both freezers are woken by one leaving. */
static void two_wait_for_the_drain(void)
{
    IS(freeze_queue_waits_enter(&waits, &tags[0], 0, NULL), OK);
    acts(freezes_too, first_leaves_last, NULL);
    IS(freeze_queue_waits_freeze(&waits, NULL), OK);
    thaws_one_of_two();
    thaws();
    SHOWS(true, false);
}

static void destroys_in_vain(void) { IS(freeze_queue_waits_destroy(&waits), ERR_IN_USE); }
static void waits_for_the_thaw(void)
{
    begins_a_freeze();
    acts(destroys_in_vain, thaws, NULL);
    IS(freeze_queue_waits_enter(&waits, &tags[0], 0, NULL), OK);
    leaves(0, false);
    begins_a_freeze();
    acts(wakes_by_itself, thaws_and_freezes, thaws);
    IS(freeze_queue_waits_enter(&waits, &tags[0], 0, NULL), OK);
    TELLS(have_acted(), true);
    leaves(0, false);
    /* each try is on the slot that it was given */
    begins_a_freeze();
    acts(thaws_and_freezes, thaws, NULL);
    IS(freeze_queue_waits_enter(&waits, &tags[0], 1, NULL), OK);
    TELLS(tried_on, 1);
    leaves(0, false);
    /* both of two are let in by one thaw */
    begins_a_freeze();
    acts(second_enters, thaws, NULL);
    IS(freeze_queue_waits_enter(&waits, &tags[0], 0, NULL), OK);
    leaves(0, false);
    leaves(1, false);
    /* it thaws before the lock is taken: who looks needn't sleep */
    begins_a_freeze();
    before_lock = thaws;
    acts(NULL, NULL, NULL);
    IS(freeze_queue_waits_enter(&waits, &tags[0], 0, NULL), OK);
    leaves(0, false);
}

/* The thaw is seen, and a freeze comes before the next try. */
static void freezes_after_the_look(void) { after_unlock = begins_a_freeze; }
static void thaws_and_is_frozen_later(void)
{
    thaws();
    freezes_after_the_look();
}

static void is_frozen_before_the_next_try(void)
{
    begins_a_freeze();
    acts(thaws_and_is_frozen_later, thaws, NULL);
    IS(freeze_queue_waits_enter(&waits, &tags[0], 1, NULL), OK);
    TELLS(have_acted(), true);
    TELLS(tried_on, 1);
    leaves(0, false);
}

/* ---- Deadlines ---- */

static void deadlines_pass(void)
{
    begins_a_freeze();
    acts(wakes_by_itself, NULL, NULL);
    IS(freeze_queue_waits_enter(&waits, &tags[0], 0, &soon), ERR_TIMED_OUT);
    IS(freeze_queue_waits_leave(&waits, &tags[0], 0), ERR_TAG_NOT_ENTERED);
    acts(thaws_untold, NULL, NULL); /* whoever tells of it comes later: a last look */
    IS(freeze_queue_waits_enter(&waits, &tags[0], 0, &soon), OK);
    acts(first_leaves_untold, NULL, NULL);
    IS(freeze_queue_waits_freeze(&waits, &soon), OK);
    thaws();
    acts(NULL, NULL, NULL);
    in_vain = 5;
    IS(freeze_queue_waits_enter(&waits, &tags[0], 0, &soon), ERR_TIMED_OUT);
    TELLS(in_vain, 3); /* a look at the deadline after each look at the queue */
    IS(freeze_queue_waits_enter(&waits, &tags[0], 0, NULL), OK);
    TELLS(in_vain, 0);
    leaves(0, false);
    IS(freeze_queue_waits_enter(&waits, &tags[0], 0, NULL), OK);
    acts(NULL, NULL, NULL);
    long before = broadcasts;
    IS(freeze_queue_waits_freeze(&waits, &soon), ERR_TIMED_OUT);
    TELLS(broadcasts - before, 0); /* nobody waits to enter */
    TELLS(depth_now(), 0);
    SHOWS(true, false);
    IS(freeze_queue_waits_begin_freeze(&waits), OK);
    SHOWS(false, false);
    IS(freeze_queue_waits_freeze(&waits, &soon), ERR_TIMED_OUT);
    TELLS(depth_now(), 1);
    SHOWS(false, false);
    leaves(0, true);
    SHOWS(false, true);
    thaws();
}

/* ---- Changes ---- */

static uint32_t max_now(void)
{
    freeze_queue_limits now = {.hardware = 0, .max = 0, .chunk = 0, .physical = 0};
    IS(freeze_queue_waits_limits(&waits, &now), OK);
    return now.max;
}

static void changes(void)
{
    freeze_queue_limits next = limits;
    next.max = 5;
    IS(freeze_queue_waits_enter(&waits, &tags[0], 0, NULL), OK);
    acts(first_leaves_last, NULL, NULL);
    IS(freeze_queue_waits_change(&waits, &next, NULL), OK);
    TELLS(have_acted(), true);
    TELLS(max_now(), 5);
    SHOWS(true, false);
    long before = events_set;
    IS(freeze_queue_waits_change(&waits, &next, NULL), OK); /* it needn't wait */
    TELLS(events_set - before, 0);
    before = freezes;
    next.max = 65;
    IS(freeze_queue_waits_change(&waits, &next, NULL), ERR_ABOVE_HARDWARE);
    next.hardware = 65;
    IS(freeze_queue_waits_change(&waits, &next, NULL), ERR_OTHER_HARDWARE);
    TELLS(freezes - before, 0);
    /* a set that is refused, and a drain that comes too late: it is live again, with the limits that it had */
    next.hardware = 64;
    next.max = 6;
    set_refuses = FREEZE_QUEUE_ERR_NOT_DRAINED;
    IS(freeze_queue_waits_change(&waits, &next, NULL), ERR_NOT_DRAINED);
    SHOWS(true, false);
    IS(freeze_queue_waits_enter(&waits, &tags[0], 0, NULL), OK);
    acts(NULL, NULL, NULL);
    IS(freeze_queue_waits_change(&waits, &next, &soon), ERR_TIMED_OUT);
    leaves(0, false);
    TELLS(max_now(), 5);
    TELLS(depth_now(), 0);
    IS(freeze_queue_waits_mode(&waits, FREEZE_QUEUE_MODE_ATOMIC), OK);
    IS(freeze_queue_waits_set(&waits, &next), ERR_NOT_FROZEN);
}

/* A change within a freeze ends its own freeze alone. */
static void changes_while_frozen(void)
{
    freeze_queue_limits next = limits;
    next.max = 7;
    begins_a_freeze();
    IS(freeze_queue_waits_change(&waits, &next, NULL), OK);
    TELLS(max_now(), 7);
    TELLS(depth_now(), 1);
    SHOWS(false, true);
    thaws();
}

/* ---- Thaws of a freeze whose call waits ---- */

static void second_freezes_and_waits(void) { IS(freeze_queue_waits_freeze(&waits, NULL), OK); }
static void thaws_one_while_it_waits(void)
{
    IS(freeze_queue_waits_thaw(&waits), OK);
    SHOWS(false, false);
}
static void begins_a_freeze_before_the_drain(void) { IS(freeze_queue_waits_begin_freeze(&waits), OK); }
static void thaws_and_freezes_before_the_drain(void)
{
    thaws();
    begins_a_freeze_before_the_drain();
}
static uint32_t is_thawed_inside(freeze_queue_limits *now, void *nothing)
{
    now->max = 9;
    thaws();
    if (nothing != NULL)
        begins_a_freeze();
    return FREEZE_QUEUE_OK;
}

/* A thaw ends a freeze whose call has returned, if there is one; otherwise the oldest whose call waits, which returns at once. */
static void thaws_what_waits(void)
{
    freeze_queue_limits next = limits;
    const uint32_t max = max_now();
    next.max = 9;
    IS(freeze_queue_waits_enter(&waits, &tags[0], 0, NULL), OK);
    acts(thaws, NULL, NULL);
    IS(freeze_queue_waits_freeze(&waits, NULL), ERR_NOT_FROZEN);
    SHOWS(true, false);
    acts(thaws, NULL, NULL);
    IS(freeze_queue_waits_change(&waits, &next, NULL), ERR_NOT_FROZEN);
    acts(thaws, NULL, NULL);
    IS(freeze_queue_waits_update(&waits, is_thawed_inside, NULL, NULL), ERR_NOT_FROZEN);
    acts(thaws_and_freezes_before_the_drain, NULL, NULL); /* the time passes beside another's freeze, which stays */
    IS(freeze_queue_waits_freeze(&waits, &soon), ERR_NOT_FROZEN);
    TELLS(depth_now(), 1);
    acts(thaws_one_while_it_waits, first_leaves_last, NULL);
    IS(freeze_queue_waits_freeze(&waits, NULL), OK);
    thaws();
    IS(freeze_queue_waits_enter(&waits, &tags[0], 0, NULL), OK);
    acts(second_freezes_and_waits, thaws_one_while_it_waits, first_leaves_last);
    IS(freeze_queue_waits_freeze(&waits, NULL), ERR_NOT_FROZEN);
    TELLS(depth_now(), 1);
    thaws();
    acts(NULL, NULL, NULL);
    IS(freeze_queue_waits_update(&waits, is_thawed_inside, NULL, NULL), ERR_NOT_FROZEN);
    IS(freeze_queue_waits_update(&waits, is_thawed_inside, &next, NULL), ERR_NOT_FROZEN); /* and nothing is set under another's freeze */
    TELLS(depth_now(), 1);
    thaws();
    TELLS(max_now(), max);
    IS(freeze_queue_waits_thaw(&waits), ERR_NOT_FROZEN);
}

/* A freeze that is refused, with as many under way as there may be, ends none of them. */
static void the_greatest_depth(void)
{
    for (uint32_t depth = 0; depth < FREEZE_QUEUE_MOST_DEPTH; depth++)
        begins_a_freeze();
    IS(freeze_queue_waits_freeze(&waits, NULL), ERR_DEPTH_FULL);
    IS(freeze_queue_waits_freeze(&waits, &soon), ERR_DEPTH_FULL);
    IS(freeze_queue_waits_begin_freeze(&waits), ERR_DEPTH_FULL);
    IS(freeze_queue_waits_change(&waits, &limits, NULL), ERR_DEPTH_FULL);
    TELLS(depth_now(), FREEZE_QUEUE_MOST_DEPTH);
    SHOWS(false, true);
    for (uint32_t depth = 1; depth < FREEZE_QUEUE_MOST_DEPTH; depth++)
        IS(freeze_queue_waits_thaw(&waits), OK);
    thaws();
}

/* The events of a queue show its own state, beside another. */
static void another_queue(void)
{
    freeze_queue other = {0};
    freeze_queue_waits others;
    freeze_queue_final last;
    TELLS(freeze_queue_new(&other, &limits, 1, 1) || freeze_queue_waits_init(&others, &other), false);
    TELLS(freeze_queue_waits_open_events(&others), 0);
    TELLS(is_readable(freeze_queue_waits_live_event(&others)), true);
    begins_a_freeze();
    IS(freeze_queue_waits_begin_freeze(&others), DRAINED);
    TELLS(is_readable(freeze_queue_waits_live_event(&others)), false);
    thaws();
    IS(freeze_queue_waits_end(&others, &last, NULL), OK);
}

int main(void)
{
    freeze_queue_final last;
    if (freeze_queue_new(&freezer, &limits, 2, 3) || freeze_queue_waits_init(&waits, &freezer))
        return 1;
    guard = &IN_WAITS->guard;
    begins_a_freeze();
    TELLS(freeze_queue_waits_open_events(&waits), 0);
    SHOWS(false, true);
    thaws();
    for (int i = 0; i < 3; i++)
        IS(freeze_queue_next_tag(&freezer, &tags[i]), OK);
    SHOWS(true, false);
    nobody_waits();
    waits_for_the_drain();
    thaws_after_the_drain();
    leaves_beside_a_call();
    two_wait_for_the_drain();
    waits_for_the_thaw();
    is_frozen_before_the_next_try();
    deadlines_pass();
    changes();
    changes_while_frozen();
    thaws_what_waits();
    the_greatest_depth();
    another_queue();
    for (int i = 0; i < 3; i++)
        IS(freeze_queue_give_tag_back(&freezer, &tags[i]), OK);
    IS(freeze_queue_remove(&freezer, &last), OK);
    IS(freeze_queue_waits_begin_freeze(&waits), ERR_CLOSED);
    SHOWS(false, false); /* no queue is live, or drained */
    freeze_queue_waits_destroy(&waits);
    return told_at_the_end();
}
