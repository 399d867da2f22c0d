/* Which calls take no step on the queue (stepless.h): handles that are freed, given out or given back, questions, and calls that
 * are refused. */
#define _GNU_SOURCE
#include "freeze_queue.h"

#include "../stepless.h"
#include "in_a_mode.h"

enum { SLOTS = 4, TAGS = 3 };

static const freeze_queue_limits limits = {.hardware = 8, .max = 3};
static freeze_queue freezer;
static freeze_queue_tag tags[FREEZE_QUEUE_MOST_TAGS], closed;

static void comes_in(int t) { IS(freeze_queue_try_enter(&tags[t], 0), OK); }
static void goes_out(int t) { IS(freeze_queue_leave(&tags[t], 0), OK); }

/* A queue of a size in a mode, frozen so often, with tag 2 in, and tag 0 if asked for. So many tags from tag 1 on, but for tag 2, have had a
 * request that biased them. */
static void a_queue(uint32_t slots, int count, int biased, uint32_t mode, uint32_t freezes, bool is_in)
{
    block_count = 0;
    IS(freeze_queue_new(&freezer, &limits, slots, (uint32_t)count), OK);
    for (int t = 0; t < count; t++)
        IS(freeze_queue_next_tag(&freezer, &tags[t]), OK);
    finds_the_table(comes_in, goes_out);
    for (int t = 1; t <= biased; t++)
        if (t != 2) {
            IS(freeze_queue_try_enter(&tags[t], (uint32_t)t % slots), OK);
            IS(freeze_queue_leave_biased(&tags[t], (uint32_t)t % slots), OK);
        }
    is_in_a_mode(&freezer, tags, slots, mode, freezes, is_in);
}

static void questions(uint32_t freezes)
{
    freeze_queue_limits read;
    uint32_t depth, piece;
    TELLS(STEPLESS(freeze_queue_depth(&freezer, &depth)), FREEZE_QUEUE_OK);
    TELLS(depth, freezes);
    TELLS(STEPLESS(freeze_queue_limits_in_force(&freezer, &read)), FREEZE_QUEUE_OK);
    TELLS(STEPLESS(freeze_queue_limits_of(&tags[2], &read)), FREEZE_QUEUE_OK);
    TELLS(STEPLESS(freeze_queue_poll_drained(&freezer)), false);
    TELLS(STEPLESS(freeze_queue_first_piece(&limits, 0, 9, &piece)), FREEZE_QUEUE_OK);
    TELLS(STEPLESS(freeze_queue_tag_number(&tags[2])) == STEPLESS(freeze_queue_number(&freezer)), true);
}

static void refused_calls(uint32_t mode, bool is_in)
{
    freeze_queue_final last;
    freeze_queue other = {0};
    TELLS(STEPLESS(freeze_queue_try_enter(&tags[1], SLOTS)), FREEZE_QUEUE_ERR_BAD_SLOT);
    TELLS(STEPLESS(freeze_queue_try_enter_frozen(&tags[1], SLOTS)), FREEZE_QUEUE_ERR_BAD_SLOT);
    TELLS(STEPLESS(freeze_queue_try_enter(&tags[2], 0)), FREEZE_QUEUE_ERR_ALREADY_ENTERED);
    TELLS(STEPLESS(freeze_queue_try_enter_frozen(&tags[2], 0)), FREEZE_QUEUE_ERR_ALREADY_ENTERED);
    TELLS(STEPLESS(freeze_queue_leave(&tags[1], 0)), FREEZE_QUEUE_ERR_TAG_NOT_ENTERED);
    TELLS(STEPLESS(freeze_queue_leave(&tags[2], SLOTS)), FREEZE_QUEUE_ERR_BAD_SLOT);
    TELLS(STEPLESS(freeze_queue_next_tag(&freezer, &closed)), FREEZE_QUEUE_ERR_NO_TAG);
    TELLS(STEPLESS(freeze_queue_next_tag(&freezer, &tags[1])), FREEZE_QUEUE_ERR_OPEN);
    TELLS(STEPLESS(freeze_queue_give_tag_back(&freezer, &tags[2])), FREEZE_QUEUE_ERR_ALREADY_ENTERED);
    TELLS(STEPLESS(freeze_queue_give_tag_back(&other, &tags[1])), FREEZE_QUEUE_ERR_CLOSED);
    TELLS(STEPLESS(freeze_queue_mode(&freezer, 2)), FREEZE_QUEUE_ERR_BAD_MODE);
    TELLS(STEPLESS(freeze_queue_mode(&freezer, mode)), FREEZE_QUEUE_OK); /* the mode that it has */
    TELLS(STEPLESS(freeze_queue_new(&freezer, &limits, 1, 1)), FREEZE_QUEUE_ERR_OPEN);
    TELLS(STEPLESS(freeze_queue_remove(&freezer, &last)), FREEZE_QUEUE_ERR_TAGS_OUT);
    TELLS(is_in, tags[0].is_open && STEPLESS(freeze_queue_limits_of(&tags[0], &(freeze_queue_limits){0})) == FREEZE_QUEUE_OK);
}

static uint64_t frees_tag(int t)
{
    freeze_queue_free_tag(&tags[t]);
    return tags[t].is_open;
}

static uint64_t frees_freezer(void)
{
    freeze_queue_free(&freezer);
    return freezer.is_open;
}

/* All handles are freed, the last share of the queue by tag 2. */
static void handles(int count)
{
    TELLS(STEPLESS(frees_tag(0)), false);
    TELLS(STEPLESS(frees_freezer()), false);
    TELLS(STEPLESS(frees_tag(1)), false);
    for (int t = TAGS; t < count; t++)
        TELLS(STEPLESS(frees_tag(t)), false);
    freeze_queue_free_tag(&tags[2]);
}

/* Handles are freed of a queue of this size in each state, with tags that were never biased, and with tags that were. */
static void handles_of(uint32_t slots, int count)
{
    for (uint32_t mode = 0; mode < 2; mode++)
        for (uint32_t freezes = 0; freezes < 3; freezes++) {
            a_queue(slots, count, 0, mode, freezes, freezes % 2);
            handles(count);
            a_queue(slots, count, count - 1, mode, freezes, freezes % 2);
            handles(count);
        }
}

/* Of each number of slots, and of each number of tags; above 64 of some. */
static void handles_of_each_size(void)
{
    for (int size = 1; size <= 64; size++) {
        handles_of((uint32_t)size, TAGS);
        handles_of(1, TAGS + size);
    }
    for (int size = 100; size < FREEZE_QUEUE_MOST_SLOTS; size = 2 * size + 1) {
        handles_of((uint32_t)size, TAGS);
        handles_of(2, size);
    }
    handles_of(FREEZE_QUEUE_MOST_SLOTS, TAGS);
    handles_of(1, FREEZE_QUEUE_MOST_TAGS);
}

int main(void)
{
    tells_writes();
    for (uint32_t mode = 0; mode < 2; mode++)
        for (uint32_t freezes = 0; freezes < 3; freezes++)
            for (int is_in = 0; is_in < 2; is_in++) {
                a_queue(SLOTS, TAGS, 0, mode, freezes, is_in);
                questions(freezes);
                refused_calls(mode, is_in);
                if (freezes == 0) { /* and what does take steps is seen */
                    TELLS(STEPS(freeze_queue_try_enter(&tags[1], 0)), FREEZE_QUEUE_OK);
                    TELLS(STEPS(freeze_queue_leave(&tags[1], 3)), FREEZE_QUEUE_OK);
                }
                TELLS(STEPLESS(freeze_queue_give_tag_back(&freezer, &tags[1])), FREEZE_QUEUE_OK);
                TELLS(STEPLESS(freeze_queue_next_tag(&freezer, &tags[1])), FREEZE_QUEUE_OK);
                handles(TAGS);
            }
    handles_of_each_size();
    printf("%s\n", failures ? "FAILED" : "no step but their own");
    return failures != 0;
}
