/* What the header tells the thread sanitizer of each call: ../telling.h says how it is tried. */
#define FREEZE_QUEUE_TELLS_TSAN 1
#include "inline.h"
#include "freeze_queue.h"

#include "../telling.h"

/* The calls by the names that a program uses. */
static uint32_t (*const try_enter)(freeze_queue_tag *, uint32_t) = freeze_queue_try_enter;
static uint32_t (*const try_enter_frozen)(freeze_queue_tag *, uint32_t) = freeze_queue_try_enter_frozen;
static uint32_t (*const leave)(freeze_queue_tag *, uint32_t) = freeze_queue_leave;
static uint32_t (*const leave_biased)(freeze_queue_tag *, uint32_t) = freeze_queue_leave_biased;
static uint32_t (*const start_freeze)(freeze_queue *, uint32_t *) = freeze_queue_start_freeze;
static bool (*const poll_drained)(freeze_queue *) = freeze_queue_poll_drained;
static uint32_t (*const set)(freeze_queue *, const freeze_queue_limits *) = freeze_queue_set;
static uint32_t (*const thaw)(freeze_queue *, uint32_t *) = freeze_queue_thaw;
#include "own_calls.h"

const char freeze_queue_layout_1 = 1;
uint64_t freeze_queue_tag_number(freeze_queue_tag *tag) { return tag ? number : 0; }
uint64_t freeze_queue_number(freeze_queue *freezer) { return freezer ? number : 0; }
freeze_queue_answer freeze_queue_try_enter(freeze_queue_tag *tag, uint32_t slot) { return called(tag && slot == 2); }
freeze_queue_answer freeze_queue_try_enter_frozen(freeze_queue_tag *tag, uint32_t slot) { return called(tag && slot == 2); }
freeze_queue_answer freeze_queue_leave(freeze_queue_tag *tag, uint32_t slot) { return called(tag && slot == 2); }
freeze_queue_answer freeze_queue_leave_biased(freeze_queue_tag *tag, uint32_t slot) { return called(tag && slot == 2); }
freeze_queue_answer freeze_queue_start_freeze(freeze_queue *freezer, uint32_t *depth) { return called(freezer && depth); }
bool freeze_queue_poll_drained(freeze_queue *freezer) { return called(freezer) == 1; }
freeze_queue_answer freeze_queue_set(freeze_queue *freezer, const freeze_queue_limits *limits)
{
    return called(freezer && limits);
}
freeze_queue_answer freeze_queue_thaw(freeze_queue *freezer, uint32_t *depth) { return called(freezer && depth); }

static freeze_queue_tag tag;
static freeze_queue freezer;
static freeze_queue_limits limits;
static uint32_t depth;

static uint32_t enters(void) { return try_enter(&tag, 2); }
static uint32_t looks_in(void) { return try_enter_frozen(&tag, 2); }
static uint32_t leaves(void) { return leave(&tag, 2); }
static uint32_t leaves_biased(void) { return leave_biased(&tag, 2); }
static uint32_t freezes(void) { return start_freeze(&freezer, &depth); }
static uint32_t polls(void) { return poll_drained(&freezer); }
static uint32_t sets(void) { return set(&freezer, &limits); }
static uint32_t thaws(void) { return thaw(&freezer, &depth); }

static const struct call calls[] = {
    {"try_enter", enters, false, "c", "ca", {FREEZE_QUEUE_OK, FREEZE_QUEUE_NOT_ENTERED_LAST}},
    {"try_enter_frozen", looks_in, false, "c", "ca", {FREEZE_QUEUE_OK, FREEZE_QUEUE_NOT_ENTERED_LAST}},
    {"leave", leaves, false, "rc", "rca", {FREEZE_QUEUE_LAST, FREEZE_QUEUE_LAST}},
    {"leave_biased", leaves_biased, false, "rc", "rca", {FREEZE_QUEUE_LAST, FREEZE_QUEUE_LAST}},
    {"start_freeze", freezes, false, "rc", "rca", {FREEZE_QUEUE_DRAINED, FREEZE_QUEUE_DRAINED}},
    {"poll_drained", polls, true, "c", "ca", {true, true}},
    {"set", sets, false, "c", "ca", {FREEZE_QUEUE_OK, FREEZE_QUEUE_OK}},
    {"thaw", thaws, false, "rc", "rc", {FREEZE_QUEUE_OK, FREEZE_QUEUE_LIVE_AGAIN}},
};

int main(void) { return told_as_promised(calls, sizeof calls / sizeof *calls, freeze_queue_orders); }
