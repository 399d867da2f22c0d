/* Asks the library a row of calls of a queue from standard input, and writes each answer: docs/FORMATS.md has the format, and
 * tests/rows/calls compares the answers. What this library can't tell is answered '?'. */
#include "freeze_queue.h"

#include "../row.h"
#include <stdlib.h>

static freeze_queue freezer;
static freeze_queue_tag tags[FREEZE_QUEUE_MOST_TAGS];
static uint32_t hardware;

/* A call that the queue can't be asked, as with limits that no queue has, is passed over. */
static bool is_passed_over(uint32_t answer)
{
    return freeze_queue_is_misuse(answer) ||
           (answer >= FREEZE_QUEUE_ERR_ABOVE_HARDWARE && answer <= FREEZE_QUEUE_ERR_OTHER_HARDWARE);
}

static void tell(uint32_t answer, const char *if_ok)
{
    static const char *const refusals[] = {"depth full", "not frozen", "not drained", "?", "worn out"};
    if (answer == FREEZE_QUEUE_OK)
        puts(if_ok);
    else if (answer == FREEZE_QUEUE_LAST)
        puts("last");
    else if (answer == FREEZE_QUEUE_NOT_ENTERED || answer == FREEZE_QUEUE_NOT_ENTERED_LAST)
        puts("again");
    else if (is_passed_over(answer))
        puts("passed over");
    else if (answer >= FREEZE_QUEUE_ERR_DEPTH_FULL && answer <= FREEZE_QUEUE_ERR_WORN_OUT)
        puts(refusals[answer - FREEZE_QUEUE_ERR_DEPTH_FULL]);
    else
        puts("?");
}

static void tell_limits(uint32_t answer, const freeze_queue_limits *limits)
{
    if (answer != FREEZE_QUEUE_OK)
        tell(answer, "");
    else if (limits->hardware == hardware)
        printf("max %" PRIu32 " chunk %" PRIu32 " physical %" PRIu32 "\n", limits->max, limits->chunk, limits->physical);
    else
        puts("another hardware");
}

static void tell_depth(uint32_t answer, uint32_t depth)
{
    if (freeze_queue_is_refused(answer))
        tell(answer, "");
    else
        printf("%" PRIu32 "\n", depth);
}

/* What a tag is asked, with the slot behind it. */
static void ask_tag(freeze_queue_tag *tag, const char *call, uint32_t slot)
{
    freeze_queue_limits limits = {0};
    if (!tag->is_open) {
        puts("passed over");
    } else if (!strcmp(call, "try")) {
        tell(freeze_queue_try_enter(tag, slot), "entered");
    } else if (!strcmp(call, "look")) {
        tell(freeze_queue_try_enter_frozen(tag, slot), "entered");
    } else if (!strcmp(call, "leave")) {
        tell(freeze_queue_leave(tag, slot), "not last");
    } else if (!strcmp(call, "limits")) {
        uint32_t answer = freeze_queue_limits_of(tag, &limits);
        tell_limits(answer, &limits);
    } else if (!strcmp(call, "give_back")) {
        tell(freeze_queue_give_tag_back(&freezer, tag), "ok");
    } else if (!strcmp(call, "lose")) {
        freeze_queue_free_tag(tag);
        puts("ok");
    } else {
        puts("?");
    }
}

static void ask_remove(void)
{
    freeze_queue_final last;
    uint32_t answer = freeze_queue_remove(&freezer, &last);
    if (answer != FREEZE_QUEUE_OK) {
        tell(answer, "");
        return;
    }
    printf("ended %s kills %" PRIu64 " releases %" PRIu64, last.dead ? "dead" : "live", last.kills, last.releases);
    printf(" words %" PRIu32 " %" PRIu32 " %" PRIu32 "\n", last.limits.max, last.limits.chunk, last.limits.physical);
}

/* What the freezer is asked, with the numbers behind it. */
static void ask_freezer(const char *call, uint32_t max, uint32_t chunk, uint32_t physical)
{
    freeze_queue_limits limits = {.hardware = hardware, .max = max, .chunk = chunk, .physical = physical};
    uint32_t depth = 0, answer;
    if (!strcmp(call, "freeze")) {
        answer = freeze_queue_start_freeze(&freezer, &depth);
        tell_depth(answer, depth);
    } else if (!strcmp(call, "thaw")) {
        answer = freeze_queue_thaw(&freezer, &depth);
        tell_depth(answer, depth);
    } else if (!strcmp(call, "depth")) {
        answer = freeze_queue_depth(&freezer, &depth);
        tell_depth(answer, depth);
    } else if (!strcmp(call, "drained")) {
        puts(freeze_queue_poll_drained(&freezer) ? "yes" : "no");
    } else if (!strcmp(call, "set")) {
        tell(freeze_queue_set(&freezer, &limits), "ok");
    } else if (!strcmp(call, "limits")) {
        answer = freeze_queue_limits_in_force(&freezer, &limits);
        tell_limits(answer, &limits);
    } else if (!strcmp(call, "slots")) {
        tell(freeze_queue_mode(&freezer, FREEZE_QUEUE_MODE_SLOTS), "ok");
    } else if (!strcmp(call, "atomic")) {
        tell(freeze_queue_mode(&freezer, FREEZE_QUEUE_MODE_ATOMIC), "ok");
    } else if (!strcmp(call, "remove")) {
        ask_remove();
    } else {
        puts("?");
    }
}

/* Makes the queue of a line 'queue SLOTS TAGS HARDWARE', and gives out its tags. */
static bool make_queue(char *line)
{
    uint32_t slots, count;
    if (sscanf(line, "queue %" SCNu32 " %" SCNu32 " %" SCNu32, &slots, &count, &hardware) != 3)
        return false;
    freeze_queue_limits limits = {.hardware = hardware, .max = 0, .chunk = 0, .physical = 1};
    if (freeze_queue_new(&freezer, &limits, slots, count) != FREEZE_QUEUE_OK)
        return false;
    for (uint32_t at = 0; at < count; at++)
        if (freeze_queue_next_tag(&freezer, &tags[at]) != FREEZE_QUEUE_OK)
            return false;
    return true;
}

static void ask(const char *actor, const char *call, const uint64_t *numbers)
{
    unsigned long tag = strtoul(actor, NULL, 10);
    if (!strcmp(actor, "f"))
        ask_freezer(call, (uint32_t)numbers[0], (uint32_t)numbers[1], (uint32_t)numbers[2]);
    else if (tag < FREEZE_QUEUE_MOST_TAGS)
        ask_tag(&tags[tag], call, (uint32_t)numbers[0]);
    else
        puts("passed over");
}

int main(void)
{
    int status = answers_row(make_queue, ask);
    for (size_t at = 0; at < FREEZE_QUEUE_MOST_TAGS; at++)
        freeze_queue_free_tag(&tags[at]);
    freeze_queue_free(&freezer);
    return status;
}
