/* Each call of the queue's library, and each number that it may answer, but for want of memory (refused.c), for a queue that
 * is worn out or in use (inside.c), and for a try that drains the queue (told_once.c). A call that is refused writes nothing. */
#include "freeze_queue.h"
#include "../is.h"

#include <stdio.h>
#include <string.h>

#define IS(call, want) is(#call, call, FREEZE_QUEUE_##want, __LINE__)

static const freeze_queue_limits plain = {.hardware = 8, .max = 0, .chunk = 0, .physical = 1};
static freeze_queue_final last;
static freeze_queue_limits told = {7, 7, 7, 7};
static uint32_t number = 7;

static void is_unwritten(int line)
{
    is("what is written", number == 7 && told.hardware == 7 && told.max == 7 && told.chunk == 7 && told.physical == 7, true,
       line);
    is("what is left", last.kills, 0, line);
}

static void closed_handles(void)
{
    freeze_queue freezer = {0};
    freeze_queue_tag tag = {0};
    IS(freeze_queue_next_tag(&freezer, &tag), ERR_CLOSED);
    IS(freeze_queue_give_tag_back(&freezer, &tag), ERR_CLOSED);
    IS(freeze_queue_remove(&freezer, &last), ERR_CLOSED);
    TELLS(freeze_queue_tag_number(&tag), 0);
    TELLS(freeze_queue_number(&freezer), 0);
    IS(freeze_queue_try_enter(&tag, 0), ERR_CLOSED);
    IS(freeze_queue_try_enter_frozen(&tag, 0), ERR_CLOSED);
    IS(freeze_queue_leave(&tag, 0), ERR_CLOSED);
    IS(freeze_queue_limits_of(&tag, &told), ERR_CLOSED);
    IS(freeze_queue_start_freeze(&freezer, &number), ERR_CLOSED);
    TELLS(freeze_queue_poll_drained(&freezer), false);
    IS(freeze_queue_set(&freezer, &plain), ERR_CLOSED);
    IS(freeze_queue_set(&freezer, &(freeze_queue_limits){0}), ERR_CLOSED);
    IS(freeze_queue_thaw(&freezer, &number), ERR_CLOSED);
    IS(freeze_queue_mode(&freezer, 9), ERR_CLOSED);
    IS(freeze_queue_depth(&freezer, &number), ERR_CLOSED);
    IS(freeze_queue_limits_in_force(&freezer, &told), ERR_CLOSED);
    freeze_queue_free_tag(&tag);
    freeze_queue_free(&freezer);
    is_unwritten(__LINE__);
}

/* Limits that are refused, in the order in which the refusals come: each of these breaks all later rules too. */
static const struct { freeze_queue_limits limits; uint32_t want; } wrong[] = {
    {{0, 1, 65536, 3}, FREEZE_QUEUE_ERR_HARDWARE_RANGE},
    {{65536, 65537, 65536, 3}, FREEZE_QUEUE_ERR_HARDWARE_RANGE},
    {{UINT32_MAX, 0, 0, 1}, FREEZE_QUEUE_ERR_HARDWARE_RANGE},
    {{8, 9, 65536, 3}, FREEZE_QUEUE_ERR_ABOVE_HARDWARE},
    {{65535, UINT32_MAX, 0, 1}, FREEZE_QUEUE_ERR_ABOVE_HARDWARE},
    {{8, 8, 65536, 3}, FREEZE_QUEUE_ERR_CHUNK_TOO_LARGE},
    {{8, 0, UINT32_MAX, 1}, FREEZE_QUEUE_ERR_CHUNK_TOO_LARGE},
    {{8, 0, 65535, 3}, FREEZE_QUEUE_ERR_BAD_PHYSICAL},
    {{8, 0, 0, 65536}, FREEZE_QUEUE_ERR_BAD_PHYSICAL},
    {{8, 0, 0, 0x80000000}, FREEZE_QUEUE_ERR_BAD_PHYSICAL},
};
enum { WRONG = sizeof wrong / sizeof *wrong };

/* The hardware's limit alone: 0 is the default of the others. */
static void default_limits(void)
{
    const freeze_queue_limits asked = {.hardware = 24};
    freeze_queue_limits given = {7, 7, 7, 7};
    freeze_queue freezer = {0};
    IS(freeze_queue_new(&freezer, &asked, 1, 1), OK);
    IS(freeze_queue_limits_in_force(&freezer, &given), OK);
    TELLS(given.hardware == 24 && given.max == 24 && given.chunk == 0 && given.physical == 1, true);
    IS(freeze_queue_first_piece(&asked, 7, 100, &number), OK);
    TELLS(number, 24);
    number = 7;
    freeze_queue_free(&freezer);
}

static void refused_limits(freeze_queue *freezer)
{
    freeze_queue closed = {0};
    for (int i = 0; i < WRONG; i++) {
        TELLS(freeze_queue_new(&closed, &wrong[i].limits, 0, 1024), wrong[i].want);
        TELLS(freeze_queue_set(freezer, &wrong[i].limits), wrong[i].want);
        TELLS(freeze_queue_first_piece(&wrong[i].limits, 0, 0, &number), wrong[i].want);
    }
    TELLS(closed.is_open, false);
    IS(freeze_queue_set(freezer, &(freeze_queue_limits){9, 0, 0, 1}), ERR_OTHER_HARDWARE);
    IS(freeze_queue_first_piece(&plain, 0, 0, &number), ERR_BAD_RANGE);
    IS(freeze_queue_first_piece(&plain, (uint64_t)1 << 33, 1, &number), ERR_BAD_RANGE);
    IS(freeze_queue_first_piece(&plain, UINT64_MAX, 1, &number), ERR_BAD_RANGE);
    is_unwritten(__LINE__);
    IS(freeze_queue_first_piece(&plain, ((uint64_t)1 << 33) - 1, 1, &number), OK);
    TELLS(number, 1);
    number = 7;
}

static void a_tag(freeze_queue *freezer, freeze_queue_tag *tag)
{
    IS(freeze_queue_try_enter(tag, 2), ERR_BAD_SLOT);
    IS(freeze_queue_try_enter_frozen(tag, UINT32_MAX), ERR_BAD_SLOT);
    IS(freeze_queue_leave(tag, 2), ERR_BAD_SLOT);
    IS(freeze_queue_leave(tag, 0), ERR_TAG_NOT_ENTERED);
    IS(freeze_queue_limits_of(tag, &told), ERR_TAG_NOT_ENTERED);
    IS(freeze_queue_try_enter(tag, 1), OK);
    IS(freeze_queue_try_enter(tag, 0), ERR_ALREADY_ENTERED);
    IS(freeze_queue_try_enter_frozen(tag, 0), ERR_ALREADY_ENTERED);
    IS(freeze_queue_try_enter(tag, 2), ERR_BAD_SLOT);
    IS(freeze_queue_leave(tag, 2), ERR_BAD_SLOT);
    IS(freeze_queue_give_tag_back(freezer, tag), ERR_ALREADY_ENTERED);
    TELLS(tag->is_open, true);
    is_unwritten(__LINE__);
    IS(freeze_queue_leave(tag, 0), OK);
    IS(freeze_queue_leave(tag, 0), ERR_TAG_NOT_ENTERED);
    IS(freeze_queue_try_enter_frozen(tag, 0), OK);
    IS(freeze_queue_leave(tag, 1), OK);
}

static void set_and_look(freeze_queue *freezer, uint32_t max)
{
    const freeze_queue_limits limits = {8, max, 5, 2};
    IS(freeze_queue_set(freezer, &limits), OK);
    IS(freeze_queue_limits_in_force(freezer, &told), OK);
    TELLS(told.max, max ? max : 8);
    TELLS(told.chunk, 5);
    TELLS(told.physical, 2);
    told = (freeze_queue_limits){7, 7, 7, 7};
}

/* A freeze with a tag in, one more on it, and a look under a freeze. */
static void a_freeze(freeze_queue *freezer, freeze_queue_tag *tag, freeze_queue_tag *other)
{
    IS(freeze_queue_set(freezer, &plain), ERR_NOT_FROZEN);
    IS(freeze_queue_thaw(freezer, &number), ERR_NOT_FROZEN);
    TELLS(freeze_queue_poll_drained(freezer), false);
    is_unwritten(__LINE__);
    IS(freeze_queue_try_enter(tag, 0), OK);
    IS(freeze_queue_start_freeze(freezer, &number), OK);
    TELLS(number, 1);
    TELLS(freeze_queue_poll_drained(freezer), false);
    IS(freeze_queue_set(freezer, &plain), ERR_NOT_DRAINED);
    IS(freeze_queue_try_enter(other, 0), NOT_ENTERED);
    IS(freeze_queue_try_enter_frozen(other, 0), OK);
    IS(freeze_queue_leave(tag, 1), OK);
    IS(freeze_queue_leave(other, 0), LAST);
    IS(freeze_queue_try_enter_frozen(other, 0), NOT_ENTERED);
    TELLS(freeze_queue_poll_drained(freezer), true);
    set_and_look(freezer, 3);
    set_and_look(freezer, 0);
    IS(freeze_queue_start_freeze(freezer, &number), DRAINED);
    TELLS(number, 2);
    IS(freeze_queue_thaw(freezer, &number), OK);
    TELLS(number, 1);
    IS(freeze_queue_try_enter(tag, 0), NOT_ENTERED);
    IS(freeze_queue_thaw(freezer, &number), LIVE_AGAIN);
    TELLS(number, 0);
    IS(freeze_queue_depth(freezer, &number), OK);
    TELLS(number, 0);
}

/* A freeze that is thawed with a tag in: of it nobody is told. */
static void a_thaw_in_between(freeze_queue *freezer, freeze_queue_tag *tag)
{
    IS(freeze_queue_try_enter(tag, 0), OK);
    IS(freeze_queue_start_freeze(freezer, &number), OK);
    IS(freeze_queue_thaw(freezer, &number), LIVE_AGAIN);
    IS(freeze_queue_leave(tag, 0), OK);
    IS(freeze_queue_mode(freezer, FREEZE_QUEUE_MODE_ATOMIC), OK);
    IS(freeze_queue_mode(freezer, 2), ERR_BAD_MODE);
    IS(freeze_queue_start_freeze(freezer, &number), DRAINED);
    IS(freeze_queue_mode(freezer, FREEZE_QUEUE_MODE_SLOTS), OK);
    for (uint32_t depth = 2; depth <= FREEZE_QUEUE_MOST_DEPTH; depth++) {
        IS(freeze_queue_start_freeze(freezer, &number), DRAINED);
        TELLS(number, depth);
    }
    number = 7;
    IS(freeze_queue_start_freeze(freezer, &number), ERR_DEPTH_FULL);
    TELLS(number, 7);
    for (uint32_t depth = FREEZE_QUEUE_MOST_DEPTH; depth > 1; depth--)
        IS(freeze_queue_thaw(freezer, &number), OK);
    TELLS(number, 1);
}

/* Numbers from 0 to 80: which are refused, misuse, or tell a drain, and a text for each that is an answer. */
static void numbers(void)
{
    static const char *const none = "no answer of a queue";
    for (uint32_t n = 0; n <= 80; n++) {
        bool is_answer = n <= 5 || (n >= 17 && n <= 21) || (n >= 25 && n <= 31) || (n >= 32 && n <= 39) || (n >= 48 && n <= 56);
        TELLS(freeze_queue_is_misuse(n), n >= 32);
        TELLS(freeze_queue_is_refused(n), n >= 16);
        TELLS(freeze_queue_is_drained(n), n == 1 || n == 3 || n == 4);
        TELLS(strcmp(freeze_queue_text(n), none) != 0, is_answer);
        for (uint32_t other = 0; is_answer && other < n; other++)
            TELLS(strcmp(freeze_queue_text(n), freeze_queue_text(other)) != 0, true);
    }
}

static void two_queues(freeze_queue *freezer, freeze_queue_tag *tag)
{
    freeze_queue other = {0};
    freeze_queue_tag others = {0};
    freeze_queue_final left;
    IS(freeze_queue_new(&other, &plain, 512, 1023), OK);
    TELLS(freeze_queue_number(&other) > freeze_queue_number(freezer), true);
    IS(freeze_queue_next_tag(&other, &others), OK);
    TELLS(freeze_queue_tag_number(&others), freeze_queue_number(&other));
    IS(freeze_queue_give_tag_back(freezer, &others), ERR_OTHER_QUEUE);
    IS(freeze_queue_give_tag_back(&other, tag), ERR_OTHER_QUEUE);
    IS(freeze_queue_try_enter(&others, 511), OK);
    IS(freeze_queue_give_tag_back(freezer, &others), ERR_OTHER_QUEUE);
    IS(freeze_queue_leave(&others, 0), OK);
    IS(freeze_queue_remove(&other, &left), ERR_TAGS_OUT);
    IS(freeze_queue_give_tag_back(&other, &others), OK);
    TELLS(others.is_open, false);
    IS(freeze_queue_remove(&other, &left), OK); /* from live */
    TELLS(left.kills == 1 && left.releases == 1 && left.dead && left.limits.max == 8, true);
    TELLS(other.is_open, false);
}

static void ends(freeze_queue *freezer, freeze_queue_tag *tag, freeze_queue_tag *other)
{
    IS(freeze_queue_remove(freezer, &last), ERR_TAGS_OUT);
    is_unwritten(__LINE__);
    IS(freeze_queue_give_tag_back(freezer, tag), OK);
    IS(freeze_queue_give_tag_back(freezer, tag), ERR_CLOSED);
    IS(freeze_queue_next_tag(freezer, tag), OK); /* the same one again */
    IS(freeze_queue_next_tag(freezer, tag), ERR_OPEN);
    IS(freeze_queue_give_tag_back(freezer, tag), OK);
    IS(freeze_queue_remove(freezer, &last), ERR_TAGS_OUT);
    IS(freeze_queue_give_tag_back(freezer, other), OK);
    IS(freeze_queue_remove(freezer, &last), OK);
    TELLS(last.dead, true);
    TELLS(last.kills, 3);
    TELLS(last.releases, 2);
}

int main(void)
{
    freeze_queue freezer = {0};
    freeze_queue_tag tag = {0}, other = {0}, none = {0};
    closed_handles();
    numbers();
    IS(freeze_queue_new(&freezer, &plain, 0, 1), ERR_BAD_SIZE);
    IS(freeze_queue_new(&freezer, &plain, 513, 1), ERR_BAD_SIZE);
    IS(freeze_queue_new(&freezer, &plain, 1, 0), ERR_BAD_SIZE);
    IS(freeze_queue_new(&freezer, &plain, 1, 1024), ERR_BAD_SIZE);
    IS(freeze_queue_new(&freezer, &plain, 2, 2), OK);
    IS(freeze_queue_new(&freezer, &(freeze_queue_limits){0}, 0, 0), ERR_OPEN);
    IS(freeze_queue_next_tag(&freezer, &tag), OK);
    IS(freeze_queue_next_tag(&freezer, &tag), ERR_OPEN);
    IS(freeze_queue_next_tag(&freezer, &other), OK);
    IS(freeze_queue_next_tag(&freezer, &none), ERR_NO_TAG);
    IS(freeze_queue_give_tag_back(&freezer, &none), ERR_CLOSED);
    default_limits();
    refused_limits(&freezer);
    a_tag(&freezer, &tag);
    a_freeze(&freezer, &tag, &other);
    a_thaw_in_between(&freezer, &tag);
    two_queues(&freezer, &tag);
    number = 7;
    ends(&freezer, &tag, &other);
    return failures != 0;
}
