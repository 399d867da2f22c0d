/* All orders of two to four threads at the waits (orders.h): entering that waits, freezes that nest, changes, a
 * queue that dies, and its end. Prints for each play how many orders and states it went through. */
#include "orders_queue.h"

static freeze_queue_final last;

static void live(void) { begin_at(0); }
static void frozen(void) { begin_at(1); }
static void at_the_last_depth(void) { begin_at(FREEZE_QUEUE_MOST_DEPTH - 1); }

static void is_live(void)
{
    NEED(the_queue()->depth == 0 && the_queue()->entered == 0);
    NEED(IN_WAITS->inside == 0);
}

static void submits(int me)
{
    NEED(freeze_queue_waits_enter(&waits, &tags[me], (uint32_t)me, NULL) == FREEZE_QUEUE_OK);
    entered++;
    NEED(freeze_queue_waits_leave(&waits, &tags[me], (uint32_t)me) == FREEZE_QUEUE_OK);
}

/* ---- Freezes ---- */

static void thaws_what_waits(int me)
{
    if (me < 2)
        submits(me);
    else
        NEED(freeze_queue_waits_thaw(&waits) == FREEZE_QUEUE_LIVE_AGAIN);
}

static void freezes_while_two_submit(int me)
{
    if (me < 2) {
        submits(me);
        return;
    }
    NEED(freeze_queue_waits_freeze(&waits, NULL) == FREEZE_QUEUE_OK);
    NEED(the_queue()->entered == 0 || !the_queue()->told);
    NEED(freeze_queue_waits_thaw(&waits) == FREEZE_QUEUE_LIVE_AGAIN);
}

static void looks_in(int me)
{
    if (me == 0) {
        submits(0);
    } else if (me == 1) {
        NEED(freeze_queue_waits_freeze(&waits, NULL) == FREEZE_QUEUE_OK);
        NEED(freeze_queue_waits_thaw(&waits) == FREEZE_QUEUE_LIVE_AGAIN);
    } else {
        uint32_t answer = freeze_queue_try_enter_frozen(&tags[2], 2);
        if (freeze_queue_is_drained(answer))
            freeze_queue_waits_notify(&waits);
        if (answer == FREEZE_QUEUE_OK)
            NEED(freeze_queue_waits_leave(&waits, &tags[2], 2) == FREEZE_QUEUE_OK);
    }
}

/* A freeze that goes on ends by its own thaw, whatever changes meanwhile. */
static void changes_beside_a_freeze(int me)
{
    const freeze_queue_limits limits = {.hardware = 64, .max = 5, .chunk = 8};
    if (me == 0) {
        NEED(freeze_queue_waits_freeze(&waits, NULL) == FREEZE_QUEUE_OK);
        uint32_t thawed = freeze_queue_waits_thaw(&waits);
        NEED(thawed == FREEZE_QUEUE_OK || thawed == FREEZE_QUEUE_LIVE_AGAIN);
    } else if (me == 1)
        NEED(freeze_queue_waits_change(&waits, &limits, NULL) == FREEZE_QUEUE_OK);
    else
        submits(2);
}

static void freezes_at_the_last_depth(int me)
{
    (void)me;
    uint32_t answer = freeze_queue_waits_freeze(&waits, NULL);
    NEED(answer == FREEZE_QUEUE_OK || answer == FREEZE_QUEUE_ERR_DEPTH_FULL);
    if (answer == FREEZE_QUEUE_OK)
        NEED(freeze_queue_waits_thaw(&waits) == FREEZE_QUEUE_OK);
}
static void is_at_the_last_depth(void) { NEED(the_queue()->depth == FREEZE_QUEUE_MOST_DEPTH - 1); }

static void freezes_for_a_while(int me)
{
    if (me == 0) {
        submits(0);
        return;
    }
    uint32_t answer = freeze_queue_waits_freeze(&waits, me == 1 ? &soon : NULL);
    NEED(answer == FREEZE_QUEUE_OK || (me == 1 && answer == FREEZE_QUEUE_ERR_TIMED_OUT));
    if (answer == FREEZE_QUEUE_OK)
        NEED(!freeze_queue_is_refused(freeze_queue_waits_thaw(&waits)));
}

/* The last to leave doesn't wait for the calls that have the lock, and a look behind it finds the drain. */
static void frozen_with_a_request(void)
{
    live();
    if (enter(&tags[0], 0, false) != FREEZE_QUEUE_OK || freeze_queue_waits_begin_freeze(&waits) != FREEZE_QUEUE_OK)
        abort();
}
static void leaves_beside_calls(int me)
{
    uint32_t depth;
    if (me < 2) {
        NEED(freeze_queue_waits_mode(&waits, FREEZE_QUEUE_MODE_SLOTS) == FREEZE_QUEUE_OK);
        return;
    }
    NEED(freeze_queue_waits_leave(&waits, &tags[0], 0) == FREEZE_QUEUE_OK);
    NEED(freeze_queue_waits_is_drained(&waits));
    NEED(freeze_queue_waits_depth(&waits, &depth) == FREEZE_QUEUE_OK && depth == 1);
}
static void is_drained(void)
{
    NEED(freeze_queue_waits_is_drained(&waits) && IN_WAITS->taken == 0 && IN_WAITS->line.first == NULL);
}

static uint32_t adds_to_max(freeze_queue_limits *limits, void *by)
{
    step(__LINE__); /* others go on while it runs */
    limits->max += *(uint32_t *)by;
    return FREEZE_QUEUE_OK;
}
static uint32_t adds_to_chunk(freeze_queue_limits *limits, void *by)
{
    step(__LINE__);
    limits->chunk += *(uint32_t *)by;
    return FREEZE_QUEUE_OK;
}
static void updates(int me)
{
    uint32_t by = (uint32_t)me + 1;
    NEED(freeze_queue_waits_update(&waits, me == 1 ? adds_to_chunk : adds_to_max, &by, NULL) == FREEZE_QUEUE_OK);
}
static void nothing_is_lost(void)
{
    is_live();
    NEED(the_queue()->limits.max == 8 + 1 + 3 && the_queue()->limits.chunk == 8 + 2);
}

/* An update beside a thread that freezes, sets and thaws by calls of its own: none of both is lost. */
static void updates_beside_a_set(int me)
{
    const freeze_queue_limits limits = {.hardware = 64, .max = 20, .chunk = 8};
    uint32_t by = 1;
    if (me == 0) {
        NEED(freeze_queue_waits_update(&waits, adds_to_max, &by, NULL) == FREEZE_QUEUE_OK);
        return;
    }
    NEED(freeze_queue_waits_freeze(&waits, NULL) == FREEZE_QUEUE_OK);
    NEED(freeze_queue_waits_set(&waits, &limits) == FREEZE_QUEUE_OK);
    NEED(!freeze_queue_is_refused(freeze_queue_waits_thaw(&waits)));
}
static void the_set_is_in_force(void)
{
    is_live();
    NEED(the_queue()->limits.max == 20 || the_queue()->limits.max == 21);
}

/* Updates with a deadline, and a request. */
static void updates_for_a_while(int me)
{
    uint32_t by = 1, answer;
    if (me == 2) {
        submits(2);
        return;
    }
    answer = freeze_queue_waits_update(&waits, adds_to_max, &by, me == 0 ? &soon : NULL);
    NEED(answer == FREEZE_QUEUE_OK || (me == 0 && answer == FREEZE_QUEUE_ERR_TIMED_OUT));
}

/* ---- A queue that dies, and ends ---- */

static void dies(int me)
{
    if (me < 2)
        NEED(freeze_queue_waits_enter(&waits, &tags[me], (uint32_t)me, NULL) == FREEZE_QUEUE_ERR_DYING);
    else {
        NEED(freeze_queue_waits_mark_dying(&waits) == FREEZE_QUEUE_OK);
        NEED(freeze_queue_waits_thaw(&waits) == FREEZE_QUEUE_OK); /* the freeze that was there */
        NEED(freeze_queue_waits_mark_dying(&waits) == FREEZE_QUEUE_OK);
        NEED(freeze_queue_waits_thaw(&waits) == FREEZE_QUEUE_ERR_NOT_FROZEN);
    }
}
static void is_dead(void) { NEED(the_queue()->depth == 1 && IN_WAITS->inside == 0); }

/* No room for one more freeze: the mark is refused, and nobody is told that the queue dies. */
static void no_room(void) { begin_at(FREEZE_QUEUE_MOST_DEPTH); }
static void cant_die(int me)
{
    if (me == 0)
        NEED(freeze_queue_waits_enter(&waits, &tags[0], 0, &soon) == FREEZE_QUEUE_ERR_TIMED_OUT);
    else
        NEED(freeze_queue_waits_mark_dying(&waits) == FREEZE_QUEUE_ERR_DEPTH_FULL);
}
static void is_as_it_was(void) { NEED(the_queue()->depth == FREEZE_QUEUE_MOST_DEPTH && !IN_WAITS->is_dying); }

/* After the end its caller may free waits. */
static void ends_for_good(void)
{
    NEED(freeze_queue_waits_end(&waits, &last, NULL) == FREEZE_QUEUE_OK);
    gone.from = (const char *)&waits;
    gone.to = gone.from + sizeof waits;
}

/* The last call of each thread gives its tag back; the third, which freezes, hasn't one. */
static void ends(int me)
{
    if (me == 2) {
        NEED(freeze_queue_give_tag_back(&freezer, &tags[2]) == FREEZE_QUEUE_OK);
        ends_for_good();
        return;
    }
    uint32_t answer = freeze_queue_waits_enter(&waits, &tags[me], (uint32_t)me, NULL);
    if (answer == FREEZE_QUEUE_OK)
        NEED(freeze_queue_waits_leave(&waits, &tags[me], (uint32_t)me) == FREEZE_QUEUE_OK);
    else
        NEED(answer == FREEZE_QUEUE_ERR_DYING);
    NEED(freeze_queue_waits_give_tag_back(&waits, &tags[me]) == FREEZE_QUEUE_OK);
}
static void has_ended(void) { NEED(!freezer.is_open && last.dead && last.kills == last.releases); }

/* One tag is out, in a live queue or in one that another keeps frozen, and a call of thread 1 begins before the end. */
static void with_a_tag_out(uint32_t depth)
{
    begin_at(depth);
    for (int i = 1; i < 3; i++)
        if (freeze_queue_give_tag_back(&freezer, &tags[i]))
            abort();
    locks[place_of(&gates[0])].owner = 1;
}
static void a_tag_is_in(void)
{
    with_a_tag_out(0);
    if (enter(&tags[0], 0, false) != FREEZE_QUEUE_OK)
        abort();
}
static void another_keeps_it_frozen(void) { with_a_tag_out(1); }
/* The same of two calls, the second of which is thread 3's. */
static void two_begin_before(void)
{
    another_keeps_it_frozen();
    locks[place_of(&gates[1])].owner = 3;
}

static void the_last_tag_comes_back(void)
{
    if (((struct tag *)tags[0].at)->entered)
        NEED(freeze_queue_waits_leave(&waits, &tags[0], 0) == FREEZE_QUEUE_OK);
    NEED(freeze_queue_waits_give_tag_back(&waits, &tags[0]) == FREEZE_QUEUE_OK);
}
static void changes_to_5(void)
{
    const freeze_queue_limits limits = {.hardware = 64, .max = 5, .chunk = 8};
    NEED(freeze_queue_waits_change(&waits, &limits, NULL) == FREEZE_QUEUE_OK);
}
static void adds_1(void)
{
    uint32_t by = 1;
    NEED(freeze_queue_waits_update(&waits, adds_to_max, &by, NULL) == FREEZE_QUEUE_OK);
}

/* The end waits for each call that has begun, and for the tag. A dying queue is frozen and changed as any other. */
static void ends_beside(int me, void (*calls)(void))
{
    if (me == 0) {
        the_last_tag_comes_back();
    } else if (me == 1) {
        calls();
    } else if (me == 2) {
        NEED(freeze_queue_waits_mark_dying(&waits) == FREEZE_QUEUE_OK);
        pthread_mutex_lock(&gates[0]);
        pthread_mutex_lock(&gates[1]);
        ends_for_good();
    } else {
        adds_1();
    }
}
static void freezes(void) { NEED(freeze_queue_waits_freeze(&waits, NULL) == FREEZE_QUEUE_OK); }
static void ends_beside_a_freeze(int me) { ends_beside(me, freezes); }
static void ends_beside_a_change(int me) { ends_beside(me, changes_to_5); }
static void ends_beside_an_update(int me) { ends_beside(me, adds_1); }

static void ends_with(uint32_t max)
{
    has_ended();
    NEED(last.limits.max == max && last.limits.chunk == 8);
}
static void ends_with_5(void) { ends_with(5); }
static void ends_with_9(void) { ends_with(9); }
static void ends_with_5_or_6(void) { ends_with(last.limits.max == 6 ? 6 : 5); }

int main(void)
{
    explore("two wait for a thaw", 3, frozen, thaws_what_waits, is_live);
    explore("a freeze while two submit", 3, live, freezes_while_two_submit, is_live);
    explore("a look into a frozen queue", 3, live, looks_in, is_live);
    explore("a change beside a freeze", 3, live, changes_beside_a_freeze, is_live);
    explore("freezes at the greatest depth", 3, at_the_last_depth, freezes_at_the_last_depth, is_at_the_last_depth);
    explore("a freeze with a deadline", 3, live, freezes_for_a_while, is_live);
    explore("the last leaves beside calls", 3, frozen_with_a_request, leaves_beside_calls, is_drained);
    explore("three updates", 3, live, updates, nothing_is_lost);
    explore("an update beside a set", 2, live, updates_beside_a_set, the_set_is_in_force);
    explore("updates with a deadline", 3, live, updates_for_a_while, is_live);
    explore("two are answered that the queue dies", 3, frozen, dies, is_dead);
    explore("a mark that is refused", 2, no_room, cant_die, is_as_it_was);
    explore("a queue ends", 3, live, ends, has_ended);
    explore("a queue ends beside a freeze", 3, a_tag_is_in, ends_beside_a_freeze, has_ended);
    explore("a queue ends beside a change", 3, a_tag_is_in, ends_beside_a_change, ends_with_5);
    explore("a queue ends beside an update", 3, a_tag_is_in, ends_beside_an_update, ends_with_9);
    explore("a frozen queue ends beside a change", 3, another_keeps_it_frozen, ends_beside_a_change, ends_with_5);
    explore("a frozen queue ends beside an update", 3, another_keeps_it_frozen, ends_beside_an_update, ends_with_9);
    explore("a frozen queue ends beside both", 4, two_begin_before, ends_beside_a_change, ends_with_5_or_6);
    printf("in all %lu orders, %lu states\n", (unsigned long)all_orders, (unsigned long)all_states);
    return 0;
}
