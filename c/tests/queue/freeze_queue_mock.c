/* A stand-in for the proved part of the queue's library, one mutex to each queue: what the tests of the C side are tried
 * over where nothing is built. It answers as freeze_queue.h says, and is no part of what is installed. */
#include "freeze_queue.h"

#include <pthread.h>
#include <stdlib.h>
#include <string.h>

struct queue_number { uint64_t counter, drawn; };

struct queue {
    pthread_mutex_t lock;
    struct queue_number number;
    freeze_queue_limits limits;
    uint32_t slots, waiting, out, entered, depth, mode, shares;
    bool told; /* of this freeze's drain */
    uint64_t kills, releases;
};

struct tag { struct queue *queue; bool entered, biased; };

#include "own_calls.h"

/* Where what of the library is C isn't linked. */
__attribute__((weak)) const char freeze_queue_layout_1 = 1;

static struct queue *locked(struct queue *queue)
{
    pthread_mutex_lock(&queue->lock);
    return queue;
}

static freeze_queue_answer unlocked(struct queue *queue, freeze_queue_answer answer)
{
    pthread_mutex_unlock(&queue->lock);
    return answer;
}

static void let_go(struct queue *queue)
{
    locked(queue);
    bool last = --queue->shares == 0;
    unlocked(queue, 0);
    if (!last)
        return;
    pthread_mutex_destroy(&queue->lock);
    free(queue);
}

static bool drained(const struct queue *queue) { return queue->depth > 0 && queue->entered == 0; }

/* The drain of a freeze is told to one. */
static bool tells(struct queue *queue)
{
    if (!drained(queue) || queue->told)
        return false;
    queue->releases++;
    return queue->told = true;
}

static freeze_queue_answer refusal_of(const freeze_queue_limits *limits)
{
    uint32_t physical = limits->physical ? limits->physical : 1;
    if (limits->hardware < 1 || limits->hardware > FREEZE_QUEUE_MOST_HARDWARE)
        return FREEZE_QUEUE_ERR_HARDWARE_RANGE;
    if (limits->max > limits->hardware)
        return FREEZE_QUEUE_ERR_ABOVE_HARDWARE;
    if (limits->chunk > FREEZE_QUEUE_MOST_HARDWARE)
        return FREEZE_QUEUE_ERR_CHUNK_TOO_LARGE;
    if (physical > FREEZE_QUEUE_MOST_PHYSICAL || (physical & (physical - 1)) != 0)
        return FREEZE_QUEUE_ERR_BAD_PHYSICAL;
    return FREEZE_QUEUE_OK;
}

static freeze_queue_limits in_full(const freeze_queue_limits *limits)
{
    freeze_queue_limits full = *limits;
    full.max = full.max ? full.max : full.hardware;
    full.physical = full.physical ? full.physical : 1;
    return full;
}

freeze_queue_answer freeze_queue_new_numbered(freeze_queue *freezer, const struct queue_number *number,
                                   const freeze_queue_limits *limits, uint32_t slots, uint32_t tags);
freeze_queue_answer freeze_queue_new_numbered(freeze_queue *freezer, const struct queue_number *number,
                                   const freeze_queue_limits *limits, uint32_t slots, uint32_t tags)
{
    if (freezer->is_open)
        return FREEZE_QUEUE_ERR_OPEN;
    uint32_t refusal = refusal_of(limits);
    if (refusal)
        return refusal;
    if (slots < 1 || slots > FREEZE_QUEUE_MOST_SLOTS || tags < 1 || tags > FREEZE_QUEUE_MOST_TAGS)
        return FREEZE_QUEUE_ERR_BAD_SIZE;
    struct queue *queue = malloc(sizeof *queue);
    if (!queue)
        return FREEZE_QUEUE_ERR_NO_MEMORY;
    *queue = (struct queue){.number = *number, .limits = in_full(limits), .slots = slots, .waiting = tags, .shares = 1};
    pthread_mutex_init(&queue->lock, NULL);
    *freezer = (freeze_queue){.is_open = true, .at = queue};
    return FREEZE_QUEUE_OK;
}

freeze_queue_answer freeze_queue_next_tag(freeze_queue *freezer, freeze_queue_tag *tag)
{
    if (!freezer->is_open)
        return FREEZE_QUEUE_ERR_CLOSED;
    if (tag->is_open)
        return FREEZE_QUEUE_ERR_OPEN;
    struct queue *queue = locked(freezer->at);
    if (queue->waiting == 0)
        return unlocked(queue, FREEZE_QUEUE_ERR_NO_TAG);
    struct tag *made = malloc(sizeof *made);
    if (!made)
        return unlocked(queue, FREEZE_QUEUE_ERR_NO_MEMORY);
    *made = (struct tag){.queue = queue};
    *tag = (freeze_queue_tag){.is_open = true, .at = made};
    queue->waiting--;
    queue->out++;
    queue->shares++;
    return unlocked(queue, FREEZE_QUEUE_OK);
}

void freeze_queue_free_tag(freeze_queue_tag *tag)
{
    if (!tag->is_open)
        return;
    let_go(((struct tag *)tag->at)->queue);
    free(tag->at);
    *tag = (freeze_queue_tag){0};
}

void freeze_queue_free_freezer(freeze_queue *freezer)
{
    if (!freezer->is_open)
        return;
    let_go(freezer->at);
    *freezer = (freeze_queue){0};
}

freeze_queue_answer freeze_queue_give_tag_back(freeze_queue *freezer, freeze_queue_tag *tag)
{
    if (!freezer->is_open || !tag->is_open)
        return FREEZE_QUEUE_ERR_CLOSED;
    struct tag *given = tag->at;
    if (given->queue != freezer->at)
        return FREEZE_QUEUE_ERR_OTHER_QUEUE;
    if (given->entered)
        return FREEZE_QUEUE_ERR_ALREADY_ENTERED;
    struct queue *queue = locked(given->queue);
    queue->waiting++;
    queue->out--;
    unlocked(queue, 0);
    freeze_queue_free_tag(tag);
    return FREEZE_QUEUE_OK;
}

freeze_queue_answer freeze_queue_remove(freeze_queue *freezer, freeze_queue_final *last)
{
    if (!freezer->is_open)
        return FREEZE_QUEUE_ERR_CLOSED;
    struct queue *queue = locked(freezer->at);
    if (queue->out > 0)
        return unlocked(queue, FREEZE_QUEUE_ERR_TAGS_OUT);
    if (queue->depth == 0) {
        queue->depth = 1;
        queue->kills++;
        queue->told = false;
    }
    tells(queue);
    memset(last, 0, sizeof *last);
    last->dead = true;
    last->kills = queue->kills;
    last->releases = queue->releases;
    last->limits = queue->limits;
    unlocked(queue, 0);
    freeze_queue_free_freezer(freezer);
    return FREEZE_QUEUE_OK;
}

uint64_t freeze_queue_tag_number(freeze_queue_tag *tag)
{
    return tag->is_open ? ((struct tag *)tag->at)->queue->number.drawn : 0;
}

uint64_t freeze_queue_number(freeze_queue *freezer)
{
    return freezer->is_open ? ((struct queue *)freezer->at)->number.drawn : 0;
}

static freeze_queue_answer enter(freeze_queue_tag *handle, uint32_t slot, bool frozen_too)
{
    if (!handle->is_open)
        return FREEZE_QUEUE_ERR_CLOSED;
    struct tag *tag = handle->at;
    if (slot >= tag->queue->slots)
        return FREEZE_QUEUE_ERR_BAD_SLOT;
    if (tag->entered)
        return FREEZE_QUEUE_ERR_ALREADY_ENTERED;
    struct queue *queue = locked(tag->queue);
    if (frozen_too ? drained(queue) : queue->depth > 0)
        return unlocked(queue, FREEZE_QUEUE_NOT_ENTERED);
    queue->entered++;
    tag->entered = true;
    return unlocked(queue, FREEZE_QUEUE_OK);
}

freeze_queue_answer freeze_queue_try_enter(freeze_queue_tag *handle, uint32_t slot)
{
    freeze_queue_answer answer = enter(handle, slot, false);
    struct tag *tag = handle->at;
    if (answer != FREEZE_QUEUE_NOT_ENTERED || !tag->biased)
        return answer;
    tag->biased = false;
    return FREEZE_QUEUE_NOT_ENTERED_LAST;
}
freeze_queue_answer freeze_queue_look_in(freeze_queue_tag *tag, uint32_t slot);
freeze_queue_answer freeze_queue_look_in(freeze_queue_tag *tag, uint32_t slot) { return enter(tag, slot, true); }

freeze_queue_answer freeze_queue_leave(freeze_queue_tag *handle, uint32_t slot)
{
    if (!handle->is_open)
        return FREEZE_QUEUE_ERR_CLOSED;
    struct tag *tag = handle->at;
    if (slot >= tag->queue->slots)
        return FREEZE_QUEUE_ERR_BAD_SLOT;
    if (!tag->entered)
        return FREEZE_QUEUE_ERR_TAG_NOT_ENTERED;
    struct queue *queue = locked(tag->queue);
    queue->entered--;
    tag->entered = false;
    return unlocked(queue, tells(queue) ? FREEZE_QUEUE_LAST : FREEZE_QUEUE_OK);
}

/* A biased tag counts as others do. Its next try says so, if it is refused. */
freeze_queue_answer freeze_queue_leave_biased(freeze_queue_tag *handle, uint32_t slot)
{
    freeze_queue_answer answer = freeze_queue_leave(handle, slot);
    if (!freeze_queue_is_refused(answer))
        ((struct tag *)handle->at)->biased = true;
    return answer;
}

freeze_queue_answer freeze_queue_limits_of(freeze_queue_tag *handle, freeze_queue_limits *limits)
{
    if (!handle->is_open)
        return FREEZE_QUEUE_ERR_CLOSED;
    struct tag *tag = handle->at;
    if (!tag->entered)
        return FREEZE_QUEUE_ERR_TAG_NOT_ENTERED;
    *limits = locked(tag->queue)->limits;
    return unlocked(tag->queue, FREEZE_QUEUE_OK);
}

freeze_queue_answer freeze_queue_start_freeze(freeze_queue *freezer, uint32_t *depth)
{
    if (!freezer->is_open)
        return FREEZE_QUEUE_ERR_CLOSED;
    struct queue *queue = locked(freezer->at);
    if (queue->depth >= FREEZE_QUEUE_MOST_DEPTH)
        return unlocked(queue, FREEZE_QUEUE_ERR_DEPTH_FULL);
    if (queue->depth == 0) {
        queue->kills++;
        queue->told = false;
    }
    *depth = ++queue->depth;
    tells(queue);
    return unlocked(queue, drained(queue) ? FREEZE_QUEUE_DRAINED : FREEZE_QUEUE_OK);
}

bool freeze_queue_poll_drained(freeze_queue *freezer)
{
    if (!freezer->is_open)
        return false;
    struct queue *queue = locked(freezer->at);
    return unlocked(queue, drained(queue));
}

freeze_queue_answer freeze_queue_set(freeze_queue *freezer, const freeze_queue_limits *limits)
{
    if (!freezer->is_open)
        return FREEZE_QUEUE_ERR_CLOSED;
    uint32_t refusal = refusal_of(limits);
    if (refusal)
        return refusal;
    struct queue *queue = locked(freezer->at);
    if (limits->hardware != queue->limits.hardware)
        return unlocked(queue, FREEZE_QUEUE_ERR_OTHER_HARDWARE);
    if (queue->depth == 0)
        return unlocked(queue, FREEZE_QUEUE_ERR_NOT_FROZEN);
    if (!drained(queue))
        return unlocked(queue, FREEZE_QUEUE_ERR_NOT_DRAINED);
    queue->limits = in_full(limits);
    return unlocked(queue, FREEZE_QUEUE_OK);
}

freeze_queue_answer freeze_queue_thaw(freeze_queue *freezer, uint32_t *depth)
{
    if (!freezer->is_open)
        return FREEZE_QUEUE_ERR_CLOSED;
    struct queue *queue = locked(freezer->at);
    if (queue->depth == 0)
        return unlocked(queue, FREEZE_QUEUE_ERR_NOT_FROZEN);
    *depth = --queue->depth;
    return unlocked(queue, *depth == 0 ? FREEZE_QUEUE_LIVE_AGAIN : FREEZE_QUEUE_OK);
}

freeze_queue_answer freeze_queue_mode(freeze_queue *freezer, uint32_t mode)
{
    if (!freezer->is_open)
        return FREEZE_QUEUE_ERR_CLOSED;
    return mode > FREEZE_QUEUE_MODE_ATOMIC ? FREEZE_QUEUE_ERR_BAD_MODE : FREEZE_QUEUE_OK;
}

freeze_queue_answer freeze_queue_depth(freeze_queue *freezer, uint32_t *depth)
{
    if (!freezer->is_open)
        return FREEZE_QUEUE_ERR_CLOSED;
    *depth = locked(freezer->at)->depth;
    return unlocked(freezer->at, FREEZE_QUEUE_OK);
}

freeze_queue_answer freeze_queue_limits_in_force(freeze_queue *freezer, freeze_queue_limits *limits)
{
    if (!freezer->is_open)
        return FREEZE_QUEUE_ERR_CLOSED;
    *limits = locked(freezer->at)->limits;
    return unlocked(freezer->at, FREEZE_QUEUE_OK);
}

freeze_queue_answer freeze_queue_first_piece(const freeze_queue_limits *limits, uint64_t start, uint32_t count, uint32_t *piece)
{
    uint32_t refusal = refusal_of(limits);
    if (refusal)
        return refusal;
    if (count == 0 || start >= (uint64_t)1 << 33)
        return FREEZE_QUEUE_ERR_BAD_RANGE;
    uint32_t reach = in_full(limits).max, to_boundary = UINT32_MAX;
    if (limits->chunk > 0)
        to_boundary = limits->chunk - (uint32_t)(start % limits->chunk);
    reach = reach < to_boundary ? reach : to_boundary;
    uint32_t past = (uint32_t)((start + reach) % in_full(limits).physical);
    *piece = count <= reach ? count : past < reach ? reach - past : reach;
    return FREEZE_QUEUE_OK;
}
