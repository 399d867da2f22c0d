/* Included by tests of what a gate and a queue have alike, under one name for both. The queue's tests define OF_QUEUE before. Here an
 * owner is the control or the freezer, a seat is a pass or a tag, and a seat counts as it takes a reference or enters. */
#ifndef ALIKE_H
#define ALIKE_H
#ifdef OF_QUEUE
#include "freeze_queue.h"
#define ALIKE(name) FREEZE_QUEUE_##name
typedef freeze_queue owner;
typedef freeze_queue_tag seat;
typedef freeze_queue_final final;
enum { MOST_SEATS = FREEZE_QUEUE_MOST_TAGS, STARTS = 1 };
#define ERR_NO_SEAT FREEZE_QUEUE_ERR_NO_TAG
#define ERR_SEATS_OUT FREEZE_QUEUE_ERR_TAGS_OUT
#define ERR_FOREIGN FREEZE_QUEUE_ERR_OTHER_QUEUE
#define next_seat freeze_queue_next_tag
#define take_back freeze_queue_give_tag_back
#define end freeze_queue_remove
#define free_owner freeze_queue_free
#define free_seat freeze_queue_free_tag
#define owner_number freeze_queue_number
#define seat_number freeze_queue_tag_number
#else
#include "percpu_gate.h"
#define ALIKE(name) PERCPU_GATE_##name
typedef percpu_gate_control owner;
typedef percpu_gate_pass seat;
typedef percpu_gate_final final;
enum { MOST_SEATS = PERCPU_GATE_MOST_PASSES, STARTS = 3 };
#define ERR_NO_SEAT PERCPU_GATE_ERR_NO_PASS
#define ERR_SEATS_OUT PERCPU_GATE_ERR_PASSES_OUT
#define ERR_FOREIGN PERCPU_GATE_ERR_OTHER_GATE
#define next_seat percpu_gate_next_pass
#define take_back percpu_gate_retire
#define end percpu_gate_exit
#define free_owner percpu_gate_free_control
#define free_seat percpu_gate_free_pass
#define owner_number percpu_gate_control_number
#define seat_number percpu_gate_pass_number
#endif
#define OK ALIKE(OK)
#define ERR_NO_MEMORY ALIKE(ERR_NO_MEMORY)
#define ERR_CLOSED ALIKE(ERR_CLOSED)
enum { MOST_SLOTS = ALIKE(MOST_SLOTS) };

/* Makes a gate with this start, or a queue, whose guarded word or maximum is 3. */
static uint32_t make(owner *of, uint32_t slots, uint32_t seats, uint32_t start)
{
#ifdef OF_QUEUE
    const freeze_queue_limits limits = {.hardware = 8, .max = 3, .chunk = 0, .physical = 1};
    (void)start;
    return freeze_queue_new(of, &limits, slots, seats);
#else
    const uint64_t words[8] = {3};
    return percpu_gate_new(of, slots, seats, start, words);
#endif
}

/* Counts once on a slot; OK if it is counted. */
static inline uint32_t count_on(seat *of, uint32_t slot)
{
#ifdef OF_QUEUE
    return freeze_queue_try_enter(of, slot);
#else
    return percpu_gate_try_get(of, slot);
#endif
}

static inline uint32_t count_off(seat *of, uint32_t slot)
{
#ifdef OF_QUEUE
    return freeze_queue_leave(of, slot);
#else
    return percpu_gate_put(of, slot, 1);
#endif
}
#endif
