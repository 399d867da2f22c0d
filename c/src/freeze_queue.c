/* What of the library is C: the unique ids of queues, the steps of a biased tag in cargo's build, the retries of try_enter_frozen, the check
 * of freeze_queue_free, and the texts. Nothing of it is proved. */
#define _POSIX_C_SOURCE 200809L
#include "freeze_queue.h"

#include <stdatomic.h>
#include <stddef.h>
#include <time.h>

/* What programs link with that have the headers' bodies in them. */
extern const char freeze_queue_layout_1;
const char freeze_queue_layout_1 = 1;

/* The place of a counter, and what it drew. No counter draws a number twice, and no two lie at one place. */
struct queue_number { uint64_t counter, drawn; };

freeze_queue_answer freeze_queue_new_numbered(freeze_queue *queue, const struct queue_number *number,
                                              const freeze_queue_limits *limits, uint32_t slots, uint32_t tags);
void freeze_queue_free_freezer(freeze_queue *queue);
freeze_queue_answer freeze_queue_look_in(freeze_queue_tag *tag, uint32_t slot);

/* What a look answers while a freeze has the tag in hand, which takes it a few steps. */
enum { IN_HAND = 6 };

freeze_queue_answer freeze_queue_new(freeze_queue *queue, const freeze_queue_limits *limits, uint32_t slots, uint32_t tags)
{
    static _Atomic uint64_t counter;
    const struct queue_number number = {(uint64_t)(uintptr_t)&counter, atomic_fetch_add(&counter, 1) + 1};
    return freeze_queue_new_numbered(queue, &number, limits, slots, tags);
}

/* In code for the thread sanitizer they are macros of the header. */
#undef freeze_queue_try_enter
#undef freeze_queue_try_enter_frozen
#undef freeze_queue_leave
#undef freeze_queue_leave_biased

#ifdef FREEZE_QUEUE_LANES
/* ---- Lanes: the calls of a biased tag, by its lane, which the first of them lends. The Rust code does the rest; the build renames its
 * functions, so that these get their names. ---- */
#include "freeze_queue/lane.h"
#undef freeze_queue_try_enter
#undef freeze_queue_leave
#undef freeze_queue_leave_biased
#undef freeze_queue_limits_of

/* The lane by which a tag is entered, NULL if there is none, and what C needs to step in it. */
struct found_lane { freeze_queue_lane *lane; const uint64_t *epoch; uint32_t slots; };
_Static_assert(sizeof(freeze_queue_lane) <= 64, "a lane has a line of 64 bytes");

struct found_lane freeze_queue_find_lane(freeze_queue_tag *tag);
void freeze_queue_rest_in_lane(freeze_queue_tag *tag);

/* Stands for the lane of a tag that may be biased, until its lane is found. Its word stays 0, so it is never busy. */
static freeze_queue_lane not_found;

/* Takes a lane back. While a lane is lent, Rust regards its tag as entered by the lane. */
static void take_lane_back(freeze_queue_tag *tag)
{
    if (tag->lent_slots == 0)
        return;
    tag->lent_slots = 0;
    if (!freeze_queue_lane_is_busy(freeze_queue_lane_of(tag)))
        freeze_queue_rest_in_lane(tag);
}

/* Lends the lane of an entered tag, if the tag entered by its lane. */
static void lend_lane(freeze_queue_tag *tag)
{
    freeze_queue_lane *lane = freeze_queue_lane_of(tag);
    if (lane == &not_found) {
        const struct found_lane found = freeze_queue_find_lane(tag);
        if ((lane = found.lane) == NULL)
            return;
        tag->reserved.words[0] = lane;
        lane->epoch = found.epoch;
        lane->slots = found.slots;
    }
    if (freeze_queue_lane_is_busy(lane) && freeze_queue_limits_of(tag, &lane->limits) == FREEZE_QUEUE_OK)
        tag->lent_slots = lane->slots;
}

freeze_queue_answer freeze_queue_laned_try_enter(freeze_queue_tag *tag, uint32_t slot);
freeze_queue_answer freeze_queue_laned_leave(freeze_queue_tag *tag, uint32_t slot);
freeze_queue_answer freeze_queue_laned_leave_biased(freeze_queue_tag *tag, uint32_t slot);
freeze_queue_answer freeze_queue_laned_limits_of(freeze_queue_tag *tag, freeze_queue_limits *limits);
freeze_queue_answer freeze_queue_laned_give_tag_back(freeze_queue *queue, freeze_queue_tag *tag);
void freeze_queue_laned_free_tag(freeze_queue_tag *tag);

/* Enters by the library with a tag that was biased. (Apart, so that a call by the lane saves no registers.) */
static __attribute__((noinline)) freeze_queue_answer enter_and_lend(freeze_queue_tag *tag, uint32_t slot)
{
    take_lane_back(tag);
    const freeze_queue_answer answer = freeze_queue_try_enter(tag, slot);
    if (answer == FREEZE_QUEUE_OK)
        lend_lane(tag);
    return answer;
}

freeze_queue_answer freeze_queue_laned_try_enter(freeze_queue_tag *tag, uint32_t slot)
{
    if (freeze_queue_lane_enters(tag, slot))
        return FREEZE_QUEUE_OK;
    return tag->reserved.words[0] == NULL ? freeze_queue_try_enter(tag, slot) : enter_and_lend(tag, slot);
}

freeze_queue_answer freeze_queue_laned_leave(freeze_queue_tag *tag, uint32_t slot)
{
    if (freeze_queue_lane_leaves(tag, slot))
        return FREEZE_QUEUE_OK;
    take_lane_back(tag);
    return freeze_queue_leave(tag, slot);
}

freeze_queue_answer freeze_queue_laned_leave_biased(freeze_queue_tag *tag, uint32_t slot)
{
    if (freeze_queue_lane_leaves(tag, slot))
        return FREEZE_QUEUE_OK;
    take_lane_back(tag);
    if (tag->reserved.words[0] == NULL && tag->is_open)
        tag->reserved.words[0] = &not_found;
    return freeze_queue_leave_biased(tag, slot);
}

freeze_queue_answer freeze_queue_laned_limits_of(freeze_queue_tag *tag, freeze_queue_limits *limits)
{
    if (freeze_queue_lane_limits(tag, limits))
        return FREEZE_QUEUE_OK;
    take_lane_back(tag);
    return freeze_queue_limits_of(tag, limits);
}

freeze_queue_answer freeze_queue_laned_give_tag_back(freeze_queue *queue, freeze_queue_tag *tag)
{
    take_lane_back(tag);
    const freeze_queue_answer answer = freeze_queue_give_tag_back(queue, tag);
    if (!tag->is_open)
        tag->reserved.words[0] = NULL;
    return answer;
}

void freeze_queue_laned_free_tag(freeze_queue_tag *tag)
{
    tag->reserved.words[0] = NULL;
    tag->lent_slots = 0;
    freeze_queue_free_tag(tag);
}
#else
static void take_lane_back(freeze_queue_tag *tag) { (void)tag; }
#endif

/* ---- A look ---- */

/* The thread sleeps before it tries again, so that the one that freezes runs, whatever their priorities are. */
freeze_queue_answer freeze_queue_try_enter_frozen(freeze_queue_tag *tag, uint32_t slot)
{
    const struct timespec moment = {0, 1000};
    freeze_queue_answer answer;
    take_lane_back(tag);
    while ((uint32_t)(answer = freeze_queue_look_in(tag, slot)) == IN_HAND)
        nanosleep(&moment, NULL);
    return answer;
}

/* The first word of the reserve has the waits of the queue, which their calls and their threads lean on. */
freeze_queue_answer freeze_queue_free(freeze_queue *queue)
{
    if (queue->reserved.words[0] != NULL)
        return FREEZE_QUEUE_ERR_IN_USE;
    freeze_queue_free_freezer(queue);
    return FREEZE_QUEUE_OK;
}

const char *freeze_queue_version(void) { return FREEZE_QUEUE_VERSION; }

const char *freeze_queue_text(freeze_queue_answer answer)
{
    switch (answer) {
    case FREEZE_QUEUE_OK: return "done";
    case FREEZE_QUEUE_LAST: return "done, and the queue is drained by it";
    case FREEZE_QUEUE_NOT_ENTERED: return "the tag isn't entered";
    case FREEZE_QUEUE_NOT_ENTERED_LAST: return "the tag isn't entered, and the queue is drained by that";
    case FREEZE_QUEUE_DRAINED: return "frozen, and the queue is drained already";
    case FREEZE_QUEUE_LIVE_AGAIN: return "thawed, and the queue is live again";
    case FREEZE_QUEUE_ERR_DEPTH_FULL: return "1000 freezes aren't thawed yet";
    case FREEZE_QUEUE_ERR_NOT_FROZEN: return "the queue isn't frozen";
    case FREEZE_QUEUE_ERR_NOT_DRAINED: return "the queue isn't drained";
    case FREEZE_QUEUE_ERR_TAGS_OUT: return "tags aren't given back";
    case FREEZE_QUEUE_ERR_WORN_OUT: return "the queue was frozen 2^40 times";
    case FREEZE_QUEUE_ERR_ABOVE_HARDWARE: return "more sectors than the hardware takes";
    case FREEZE_QUEUE_ERR_CHUNK_TOO_LARGE: return "a chunk of more than 65535 sectors";
    case FREEZE_QUEUE_ERR_HARDWARE_RANGE: return "a hardware limit outside 1 to 65535 sectors";
    case FREEZE_QUEUE_ERR_BAD_PHYSICAL: return "a physical block that isn't a power of two from 1 to 32768 sectors";
    case FREEZE_QUEUE_ERR_OTHER_HARDWARE: return "a hardware limit that isn't the queue's";
    case FREEZE_QUEUE_ERR_TIMED_OUT: return "the deadline has passed";
    case FREEZE_QUEUE_ERR_DYING: return "the queue is dying";
    case FREEZE_QUEUE_ERR_CLOSED: return "the handle is closed";
    case FREEZE_QUEUE_ERR_OPEN: return "the handle is open";
    case FREEZE_QUEUE_ERR_BAD_SLOT: return "no such slot";
    case FREEZE_QUEUE_ERR_ALREADY_ENTERED: return "the tag has entered";
    case FREEZE_QUEUE_ERR_TAG_NOT_ENTERED: return "the tag hasn't entered";
    case FREEZE_QUEUE_ERR_OTHER_QUEUE: return "the tag is of another queue";
    case FREEZE_QUEUE_ERR_BAD_SIZE: return "no queue has so many slots or tags";
    case FREEZE_QUEUE_ERR_NO_TAG: return "every tag was given out";
    case FREEZE_QUEUE_ERR_NO_MEMORY: return "no memory";
    case FREEZE_QUEUE_ERR_BAD_MODE: return "no such mode";
    case FREEZE_QUEUE_ERR_BAD_RANGE: return "no sector, or a start at or beyond 2^33";
    case FREEZE_QUEUE_ERR_TAG_NOT_OUT: return "the tag was given back already";
    case FREEZE_QUEUE_ERR_IN_USE: return "the queue has waits, or another call uses them or ends the pool";
    case FREEZE_QUEUE_ERR_BAD_DEADLINE: return "a deadline whose nanoseconds aren't from 0 to 999999999";
    case FREEZE_QUEUE_ERR_BAD_RETURN: return "the function of an update returned a number from 1 to 15";
    case FREEZE_QUEUE_ERR_IN_UPDATE: return "a call that waits for the update whose function makes it";
    case FREEZE_QUEUE_ERR_NO_EVENT: return "no descriptor or memory for an event";
    default: return "no answer of a queue";
    }
}
