/* Answers the queue's lines with the library freeze_queue, which only this file uses. Tags and freezers that
 * have to wait are kept in lists, and tried again when a result of the library asks to wake them. */
#include "lines.h"
#include <freeze_queue.h>

enum { TAGS = 63, FREEZERS = 4 };

static freeze_queue freezer;
static freeze_queue_tag handles[TAGS];
static uint32_t slots, tags, hardware, slot_of[TAGS];
static bool is_there, is_in[TAGS], is_waiting[TAGS], has_waiter[FREEZERS];
/* The call that was made has drained the queue; it has ended a freeze. */
static bool is_drained, is_live_again;
static uint64_t drains;

static void refused(uint32_t answer) { printf("refused: %s", freeze_queue_text(answer)); }

static freeze_queue_limits limits_at(uint32_t of_hardware, unsigned at)
{
    return (freeze_queue_limits){.hardware = of_hardware, .max = number(at), .chunk = number(at + 1), .physical = number(at + 2)};
}

static bool begin(void)
{
    for (uint32_t it = 0; it < tags; it++)
        freeze_queue_free_tag(&handles[it]);
    freeze_queue_free(&freezer);
    slots = number(1);
    tags = number(2);
    hardware = number(3);
    memset(is_in, 0, sizeof is_in);
    memset(is_waiting, 0, sizeof is_waiting);
    memset(has_waiter, 0, sizeof has_waiter);
    freeze_queue_limits limits = limits_at(hardware, 4);
    uint32_t answer = number(1) > 64 || number(2) > TAGS ? FREEZE_QUEUE_ERR_BAD_SIZE : freeze_queue_new(&freezer, &limits, slots, tags);
    is_there = !answer && limits.max && limits.physical; /* 0 asks for the hardware's, or for one sector, here */
    if (!is_there) {
        tags = 0;
        refused(answer);
        return true;
    }
    for (uint32_t it = 0; it < tags; it++)
        if (freeze_queue_next_tag(&freezer, &handles[it]))
            return false;
    drains = 0;
    printf("queue");
    return true;
}

/* Tries to enter, and notes a drain by it. */
static uint32_t entered(uint32_t tag, uint32_t slot, bool is_frozen_too)
{
    uint32_t answer = (is_frozen_too ? freeze_queue_try_enter_frozen : freeze_queue_try_enter)(&handles[tag], slot);
    is_in[tag] = answer == FREEZE_QUEUE_OK;
    is_drained |= freeze_queue_is_drained(answer);
    return answer;
}

static void limits_of(uint32_t tag)
{
    freeze_queue_limits limits;
    uint32_t answer = freeze_queue_limits_of(&handles[tag], &limits);
    if (answer)
        refused(answer);
    else
        printf("%u %u %u", limits.max, limits.chunk, limits.physical);
}

static bool of_tag(void)
{
    uint64_t tag = number(1), slot = number(2);
    uint32_t answer;
    if (!is("enter") && !is("nowait") && !is("look") && !is("leave") && !is("limits"))
        return false;
    if (tag >= tags || slot >= slots || is_waiting[tag]) {
        printf("refused: no such tag or slot, or the tag waits");
    } else if (is("limits")) {
        limits_of(tag);
    } else if (is("leave")) {
        answer = freeze_queue_leave(&handles[tag], slot);
        is_drained |= freeze_queue_is_drained(answer);
        is_in[tag] &= answer >= 16;
        if (answer >= 16)
            refused(answer);
        else
            printf("left");
    } else if (is_in[tag]) {
        refused(FREEZE_QUEUE_ERR_ALREADY_ENTERED);
    } else if ((answer = entered(tag, slot, is("look"))) >= 16) {
        refused(answer);
    } else if (is("enter")) {
        is_waiting[tag] = answer;
        slot_of[tag] = slot;
        printf(answer ? "waits" : "enters; entered %u", (unsigned)tag);
    } else {
        printf(answer ? "again" : "entered");
    }
    return true;
}

static void destroy(void)
{
    freeze_queue_final last;
    const char *gone = "; gone";
    for (uint32_t it = 0; it < tags; it++)
        if (is_in[it]) {
            printf("refused: tags are in");
            return;
        }
    for (uint32_t it = 0; it < tags; it++) {
        if (freeze_queue_give_tag_back(&freezer, &handles[it]))
            printf("a tag isn't taken back");
        if (is_waiting[it])
            printf("%s %u", gone, it), gone = "";
    }
    uint32_t answer = freeze_queue_remove(&freezer, &last);
    const char *drained = "; drained";
    for (uint32_t it = 0; it < FREEZERS; it++)
        if (has_waiter[it])
            printf("%s %u", drained, it), drained = "";
    if (answer)
        refused(answer);
    printf("; zero yes, kills %" PRIu64 ", releases %" PRIu64, last.kills, last.releases);
    if (last.releases != drains)
        printf("; release");
    is_there = false;
}

static void wait_drained(void)
{
    uint64_t it = number(1);
    if (it >= FREEZERS || has_waiter[it]) {
        printf("refused: no such freezer, or it waits");
        return;
    }
    has_waiter[it] = !freeze_queue_poll_drained(&freezer);
    printf(has_waiter[it] ? "waits" : "is drained; drained %u", (unsigned)it);
}

static void set(void)
{
    freeze_queue_limits limits = limits_at(hardware, 1);
    uint32_t answer = limits.max && limits.physical ? freeze_queue_set(&freezer, &limits) : FREEZE_QUEUE_ERR_HARDWARE_RANGE;
    if (answer == FREEZE_QUEUE_ERR_NOT_DRAINED || answer == FREEZE_QUEUE_ERR_NOT_FROZEN)
        printf("not drained");
    else if (answer)
        refused(answer);
    else
        printf("ok");
}

/* A freeze or a thaw, and the depth that it leaves. */
static void froze_or_thawed(void)
{
    uint32_t depth, answer = (is("freeze") ? freeze_queue_start_freeze : freeze_queue_thaw)(&freezer, &depth);
    if (answer == FREEZE_QUEUE_ERR_NOT_FROZEN) {
        printf("not frozen");
    } else if (answer >= 16) {
        refused(answer);
    } else {
        printf("depth %u", depth);
        is_drained |= answer == FREEZE_QUEUE_DRAINED && depth == 1;
        is_live_again |= answer == FREEZE_QUEUE_LIVE_AGAIN;
    }
}

static void of_freezer(void)
{
    uint32_t depth;
    if (is("freeze") || is("thaw")) {
        froze_or_thawed();
    } else if (is("wait")) {
        wait_drained();
    } else if (is("drained")) {
        printf("%s", yes_no(freeze_queue_poll_drained(&freezer)));
    } else if (is("depth")) {
        freeze_queue_depth(&freezer, &depth);
        printf("%u", depth);
    } else if (is("set")) {
        set();
    } else if (is("mode")) {
        uint32_t answer = freeze_queue_mode(&freezer, has_word(1, "slots") ? FREEZE_QUEUE_MODE_SLOTS : FREEZE_QUEUE_MODE_ATOMIC);
        if (answer)
            refused(answer);
        else
            printf("ok");
    } else if (is("destroy")) {
        destroy();
    } else {
        printf("refused: no such line");
    }
}

/* Wakes the tags after the last thaw, and the freezers after a drain, as the library's answers ask for it. */
static void wake(void)
{
    const char *what = "; entered";
    for (uint32_t it = 0; is_live_again && it < tags; it++)
        if (is_waiting[it] && entered(it, slot_of[it], false) == FREEZE_QUEUE_OK) {
            is_waiting[it] = false;
            printf("%s %u", what, it), what = "";
        }
    what = "; drained";
    for (uint32_t it = 0; is_drained && it < FREEZERS; it++)
        if (has_waiter[it] && freeze_queue_poll_drained(&freezer)) {
            has_waiter[it] = false;
            printf("%s %u", what, it), what = "";
        }
    if (is_drained)
        printf("; release");
    drains += is_drained;
}

static void split(void)
{
    uint32_t piece, answer;
    freeze_queue_limits limits = limits_at(number(3), 4);
    if (!limits.max || number(2) > UINT32_MAX)
        printf("refused: no maximum, or too many sectors");
    else if ((answer = freeze_queue_first_piece(&limits, number(1), number(2), &piece)))
        refused(answer);
    else
        printf("%u", piece);
}

int main(void)
{
    while (next_line()) {
        is_drained = is_live_again = false;
        if (is("queue")) {
            if (!begin())
                printf("a queue that doesn't begin");
        } else if (is("split")) {
            split();
        } else if (!is_there) {
            printf("refused: no queue");
        } else if (!of_tag()) {
            of_freezer();
        }
        if (is_there)
            wake();
        puts("");
    }
    return 0;
}
