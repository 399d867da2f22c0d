/* The queue of the plays of orders.c and orders_pool.c, over the stand-in for the proved part: its calls are steps of the
 * scheduler (orders.h), each with what it answers. A call of a freezer whose queue was removed fails the play. */
#ifndef ORDERS_QUEUE_H
#define ORDERS_QUEUE_H
#define _GNU_SOURCE
#include "inline.h"
#include <stddef.h>
#include <stdlib.h>

/* What the stand-in allocates goes with its run. */
static char block[1 << 14];
static size_t taken;
static void *takes_bytes(size_t size)
{
    void *at = block + taken;
    taken += (size + 15) / 16 * 16;
    return taken <= sizeof block ? at : NULL;
}
static void lets_go(void *at) { (void)at; }
#define malloc takes_bytes
#define free lets_go
#include "freeze_queue_mock.c"
#undef malloc
#undef free

#include "orders.h"

/* What a pool allocates, once in a run. */
static _Alignas(128) char block_of_pool[1 << 11];
static int takes_block(void **at, size_t alignment, size_t size)
{
    *at = block_of_pool;
    return alignment == 128 && size <= sizeof block_of_pool ? 0 : ENOMEM;
}
static void lets_block_go(void *at)
{
    gone.from = at;
    gone.to = gone.from + sizeof block_of_pool;
}

/* A try counts for a moment where it is refused, so another may be the last to leave meanwhile. */
static uint32_t tries(freeze_queue_tag *tag, uint32_t slot, bool frozen_too, int line)
{
    step(line);
    uint32_t answer = enter(tag, slot, frozen_too);
    if (answer != FREEZE_QUEUE_NOT_ENTERED)
        return (uint32_t)saw(answer);
    struct queue *queue = ((struct tag *)tag->at)->queue;
    bool counts = !queue->told;
    queue->entered += counts;
    step(line);
    queue->entered -= counts;
    return (uint32_t)saw(tells(queue) ? FREEZE_QUEUE_NOT_ENTERED_LAST : FREEZE_QUEUE_NOT_ENTERED);
}

static uint64_t saw_limits(uint32_t answer, const freeze_queue_limits *limits)
{
    if (answer == FREEZE_QUEUE_OK)
        saw((uint64_t)limits->max << 32 | limits->chunk);
    return saw(answer);
}

/* Locks that threads open when a freeze or a change of theirs begins, for a thread that begins later. */
static pthread_mutex_t gates[2];
static void opens_gate(void)
{
    for (int i = 0; i < 2; i++)
        if (holds(&gates[i]))
            locks[place_of(&gates[i])].owner = -1;
}

/* A thread that sleeps has begun its call too. */
#undef pthread_cond_wait
#define pthread_cond_wait(on, lock) (opens_gate(), ordered_sleep(on, lock, false, __LINE__))

/* The freezer of a call, whose queue wasn't removed. */
static freeze_queue *still_there(freeze_queue *of)
{
    if (!of->is_open)
        fail("a call is made of a queue that was removed");
    return of;
}

#include "own_calls.h"
#define OF_QUEUE(call) (step(__LINE__), (uint32_t)saw(call))
#define OF_FREEZER(of) (opens_gate(), still_there(of))
#define freeze_queue_try_enter(tag, slot) tries(tag, slot, false, __LINE__)
#define freeze_queue_try_enter_frozen(tag, slot) tries(tag, slot, true, __LINE__)
#define freeze_queue_leave(tag, slot) OF_QUEUE(freeze_queue_leave(tag, slot))
#define freeze_queue_start_freeze(of, depth) OF_QUEUE(freeze_queue_start_freeze(OF_FREEZER(of), depth))
#define freeze_queue_poll_drained(of) (bool)OF_QUEUE(freeze_queue_poll_drained(OF_FREEZER(of)))
#define freeze_queue_set(of, limits) OF_QUEUE(freeze_queue_set(OF_FREEZER(of), limits))
#define freeze_queue_thaw(of, depth) OF_QUEUE(freeze_queue_thaw(OF_FREEZER(of), depth))
#define freeze_queue_depth(of, depth) freeze_queue_depth(OF_FREEZER(of), depth)
#define freeze_queue_limits_in_force(of, limits) \
    (uint32_t)saw_limits(freeze_queue_limits_in_force(OF_FREEZER(of), limits), limits)
#define freeze_queue_give_tag_back(of, tag) OF_QUEUE(freeze_queue_give_tag_back(OF_FREEZER(of), tag))
#define freeze_queue_remove(of, last) OF_QUEUE(freeze_queue_remove(OF_FREEZER(of), last))
#define posix_memalign takes_block
#define free lets_block_go
#include "freeze_queue_pool.h"
#undef posix_memalign
#undef free

static freeze_queue freezer;
static freeze_queue_waits waits;
static freeze_queue_tag tags[3];
static const struct timespec soon = {1, 0};
static int entered; /* requests that entered and left */

static void need(bool holds, const char *what)
{
    if (!holds)
        fail(what);
}

#define NEED(holds) need(holds, "not " #holds)

static struct queue *the_queue(void) { return freezer.at; }

/* The calls that stand in lines are on the stacks of their threads. */
static uint64_t state_of_lines(uint64_t sum)
{
    const freeze_queue_waiter *firsts[] = {IN_WAITS->line.first, IN_WAITS->turns.first, IN_WAITS->frozen.first, IN_WAITS->ender};
    for (int i = 0; i < 4; i++)
        for (const freeze_queue_waiter *one = firsts[i]; one != NULL; one = i < 3 ? one->after : NULL)
            sum = mixed(sum, (uint64_t)(uintptr_t)one * 8 + (uint64_t)one->is_woken * 4 + (uint64_t)one->is_thawed * 2 + (one->on != NULL));
    return sum;
}

/* A queue, frozen so often, with three tags. */
static void begin_at(uint32_t depth)
{
    const freeze_queue_limits limits = {.hardware = 64, .max = 8, .chunk = 8};
    const struct queue_number number = {1, 1};
    taken = 0;
    freezer = (freeze_queue){0};
    memset(&waits, 0, sizeof waits);
    if (freeze_queue_new_numbered(&freezer, &number, &limits, 4, 3) || freeze_queue_waits_init(&waits, &freezer))
        abort();
    for (int i = 0; i < 3; i++) {
        tags[i] = (freeze_queue_tag){0};
        if (freeze_queue_next_tag(&freezer, &tags[i]))
            abort();
    }
    the_queue()->depth = depth;
    the_queue()->told = depth > 0;
    the_queue()->kills = the_queue()->releases = depth > 0;
    freeze_queue_waits_notify(&waits);
    entered = 0;
    watch(&IN_WAITS->taken, sizeof *IN_WAITS - offsetof(freeze_queue_waits_state, taken));
    more_state = state_of_lines;
    watch(&the_queue()->limits, sizeof(struct queue) - offsetof(struct queue, limits));
    watch(&entered, sizeof entered);
}
#endif
