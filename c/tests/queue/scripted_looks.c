/* How the waits look before they sleep, by a script on one thread (scripted.h): at a lock that another call has, and for the
 * drain. The clock is the test's, so each look is counted. */
#define _POSIX_C_SOURCE 200809L
#define FREEZE_QUEUE_LOOK 1000
#include "inline.h"
#include "freeze_queue.h"
#include "own_calls.h"
#include "scripted.h"

static freeze_queue freezer;
static freeze_queue_tag tag;
static struct timespec clock_now; /* what was read last */
static long tick = 300;           /* each reading is so many nanoseconds later */
static long readings, looks;      /* of the clock, and for the drain */
static long leaves_at;            /* the look before which the tag leaves */
static long unlocks_at;           /* the reading at which another call gives up the lock */
static void unlocks(void);
static scripted_act at_the_clock, after_the_leave; /* what acts at the next reading, and after the next leave that biases the tag */

static int scripted_clock(struct timespec *at)
{
    readings++;
    clock_now.tv_sec += (clock_now.tv_nsec + tick) / 1000000000;
    clock_now.tv_nsec = (clock_now.tv_nsec + tick) % 1000000000;
    *at = clock_now;
    run_once(&at_the_clock);
    if (readings == unlocks_at)
        unlocks();
    return 0;
}

/* Another thread leaves before a look: it can't tell that before the lock is released. */
static bool looks_for_the_drain(freeze_queue *of)
{
    need(has_lock, "a call of the freezer is made without the lock");
    need(++looks < 1000, "looks for ever");
    if (looks == leaves_at)
        IS(freeze_queue_leave(&tag, 0), LAST);
    return freeze_queue_poll_drained(of);
}

static uint32_t leaves_biased(freeze_queue_tag *of, uint32_t slot)
{
    const uint32_t answer = freeze_queue_leave_biased(of, slot);
    run_once(&after_the_leave);
    return answer;
}

#define clock_gettime(clock, at) scripted_clock(at)
#define freeze_queue_leave_biased(of, slot) leaves_biased(of, slot)
#define freeze_queue_poll_drained looks_for_the_drain
#include "freeze_queue_waits.h"

static freeze_queue_waits waits;
static const struct timespec soon = {1, 0};

/* From a time on nothing was read or looked for. */
static void begins_at(time_t seconds, long nanoseconds)
{
    clock_now.tv_sec = seconds;
    clock_now.tv_nsec = nanoseconds;
    readings = looks = leaves_at = unlocks_at = 0;
}

static uint32_t depth_now(void)
{
    uint32_t depth = UINT32_MAX;
    IS(freeze_queue_waits_depth(&waits, &depth), OK);
    return depth;
}

static void thaws(void) { IS(freeze_queue_waits_thaw(&waits), LIVE_AGAIN); }

/* ---- For the drain ---- */

/* The first look is of the freeze itself, for the events. */
static void sees_the_drain(long at)
{
    begins_at(5, 0);
    IS(freeze_queue_waits_enter(&waits, &tag, 0, NULL), OK);
    leaves_at = at;
    acts(NULL, NULL, NULL);
    IS(freeze_queue_waits_freeze(&waits, NULL), OK);
    TELLS(looks, at);
    TELLS(readings, at <= 2 ? 0 : at - 1); /* one is for the end of the looks */
    thaws();
}

/* It has looked so often before it slept. */
static long looks_before_the_sleep;
static void leaves_late(void)
{
    TELLS(looks, looks_before_the_sleep);
    IS(freeze_queue_waits_leave(&waits, &tag, 0), OK);
}

/* So many looks are in time from a time on. Then it sleeps, and once more after a wake by itself. */
static void sleeps_after(long in_time, time_t seconds, long nanoseconds)
{
    begins_at(seconds, nanoseconds);
    IS(freeze_queue_waits_enter(&waits, &tag, 0, NULL), OK);
    looks_before_the_sleep = 2 + in_time;
    acts(wakes_by_itself, leaves_late, NULL);
    IS(freeze_queue_waits_freeze(&waits, NULL), OK);
    TELLS(have_acted(), true);
    TELLS(readings, 1 + in_time + 1);
    thaws();
}

static void times_out(void)
{
    begins_at(5, 0);
    IS(freeze_queue_waits_enter(&waits, &tag, 0, NULL), OK);
    acts(NULL, NULL, NULL);
    IS(freeze_queue_waits_freeze(&waits, &soon), ERR_TIMED_OUT);
    TELLS(depth_now(), 0);
    IS(freeze_queue_waits_leave(&waits, &tag, 0), OK);
}

/* ---- For the thaw: not once, since a freeze may last ---- */

static void enters_late(void)
{
    begins_at(5, 0);
    IS(freeze_queue_waits_begin_freeze(&waits), DRAINED);
    acts(thaws, NULL, NULL);
    IS(freeze_queue_waits_enter(&waits, &tag, 0, NULL), OK);
    TELLS(have_acted(), true);
    TELLS(readings, 0);
    IS(freeze_queue_waits_leave(&waits, &tag, 0), OK);
}

/* ---- At the lock ---- */

/* Another call gives the lock to the one that stands in line, at a reading of the clock or, if that is 0, while it sleeps. */
static void unlocks(void)
{
    freeze_queue_waits_unlock(IN_WAITS);
    is_others = false;
}
static void gets_the_lock(long at, long wants)
{
    begins_at(5, 999999000);
    freeze_queue_waits_lock(IN_WAITS);
    is_others = true;
    unlocks_at = at;
    acts(at > 0 ? NULL : unlocks, NULL, NULL);
    IS(freeze_queue_waits_mode(&waits, FREEZE_QUEUE_MODE_SLOTS), OK);
    TELLS(readings, wants);
    TELLS(have_acted() && !has_lock && IN_WAITS->taken == 0, true);
}

/* A request comes while a change has the queue frozen: it polls for the thaw, and doesn't sleep. */
static void thaws_and_unlocks(void)
{
    IS(freeze_queue_waits_thaw_one(IN_WAITS), LIVE_AGAIN);
    unlocks();
}
static void enters_beside_a_change(void)
{
    begins_at(5, 0);
    IS(freeze_queue_waits_begin_freeze(&waits), DRAINED);
    freeze_queue_waits_lock(IN_WAITS);
    is_others = true;
    at_the_clock = thaws_and_unlocks;
    acts(NULL, NULL, NULL);
    IS(freeze_queue_waits_enter(&waits, &tag, 0, NULL), OK);
    TELLS(at_the_clock == NULL && !has_lock, true);
    IS(freeze_queue_waits_leave(&waits, &tag, 0), OK);
}

/* The deadline passes while another call has the lock. */
static void waits_in_vain_for_the_lock(void)
{
    const freeze_queue_limits next = {.hardware = 64, .max = 3};
    begins_at(5, 0);
    freeze_queue_waits_lock(IN_WAITS);
    is_others = true;
    acts(NULL, NULL, NULL);
    IS(freeze_queue_waits_freeze(&waits, &soon), ERR_TIMED_OUT);
    IS(freeze_queue_waits_change(&waits, &next, &soon), ERR_TIMED_OUT);
    IS(freeze_queue_waits_update(&waits, NULL, NULL, &soon), ERR_TIMED_OUT);
    TELLS(depth_now(), 0);
    TELLS(IN_WAITS->line.first == NULL, true);
    unlocks();
    TELLS(has_lock, false);
}

/* Another call has the lock when the last request leaves. That doesn't wait: the other call shows the drain as it gives up the lock. */
static void leaves_beside_another(void)
{
    begins_at(5, 0);
    IS(freeze_queue_waits_enter(&waits, &tag, 0, NULL), OK);
    IS(freeze_queue_waits_begin_freeze(&waits), OK);
    freeze_queue_waits_lock(IN_WAITS);
    IS(freeze_queue_waits_leave(&waits, &tag, 0), OK);
    TELLS(IN_WAITS->shown, FREEZE_QUEUE_DEPTH);
    is_others = true;
    acts(unlocks, NULL, NULL);
    TELLS(freeze_queue_waits_is_drained(&waits) && have_acted(), true); /* it waits for that call, which may have seen no drain */
    TELLS(IN_WAITS->shown, FREEZE_QUEUE_DEPTH | FREEZE_QUEUE_DRAINED_BIT);
    TELLS(!has_lock && IN_WAITS->taken == 0 && freeze_queue_waits_is_drained(&waits), true);
    thaws();
}

/* ---- A bias ---- */

static void freezes_and_thaws(void)
{
    need(freeze_queue_waits_begin_freeze(&waits) < 16, "no freeze begins");
    thaws();
}

/* A tag leaves where it may be biased, or where a pause is just over. */
static void leaves_after(uint64_t pause_end)
{
    begins_at(5, 0);
    IN_WAITS->unbiased_until = pause_end;
    IN_WAITS->has_biased = 1;
    tag.reserved.words[1] = NULL;
    IS(freeze_queue_waits_enter(&waits, &tag, 0, NULL), OK);
    IS(freeze_queue_waits_leave(&waits, &tag, 0), OK);
}

/* A freeze between the leave that biases a tag and the note of that takes the bias: it is noted as of before. */
static void a_bias_is_taken_at_once(void)
{
    after_the_leave = freezes_and_thaws;
    leaves_after(0);
    TELLS(after_the_leave == NULL && !freeze_queue_is_biased(IN_WAITS, &tag), true);
}

/* A pause that begins while a tag asks whether the last one is over goes on. */
static void a_pause_begins_meanwhile(void)
{
    at_the_clock = freezes_and_thaws;
    leaves_after(1);
    TELLS(at_the_clock == NULL && IN_WAITS->unbiased_until > 1, true);
}

int main(void)
{
    const freeze_queue_limits limits = {.hardware = 64, .max = 8, .chunk = 0, .physical = 1};
    freeze_queue_final last;
    if (freeze_queue_new(&freezer, &limits, 1, 1) || freeze_queue_waits_init(&waits, &freezer))
        return 1;
    IS(freeze_queue_waits_next_tag(&waits, &tag), OK);
    a_bias_is_taken_at_once();
    a_pause_begins_meanwhile();
    /* No tag is biased, and none asks the clock for that. */
    IN_WAITS->has_biased = 0;
    IN_WAITS->unbiased_until = UINT64_MAX;
    tag.reserved.words[1] = (void *)(UINTPTR_MAX - 1);
    for (long at = 2; at < 6; at++)
        sees_the_drain(at);
    sleeps_after(3, 5, 0);
    sleeps_after(3, 5, 999999200); /* the second ends meanwhile */
    times_out();
    enters_late();
    for (long at = 2; at < 9; at++)
        gets_the_lock(at, at);
    gets_the_lock(0, 8);
    enters_beside_a_change();
    waits_in_vain_for_the_lock();
    leaves_beside_another();
    tick = 1000000000; /* the thread is put off its processor for a second */
    sleeps_after(0, 5, 0);
    gets_the_lock(0, 2);
    IS(freeze_queue_waits_give_tag_back(&waits, &tag), OK);
    IS(freeze_queue_waits_end(&waits, &last, NULL), OK);
    return told_at_the_end();
}
