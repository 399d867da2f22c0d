/* Random calls on one thread, right ones and wrong ones, on a few queues: each answer, and each value that is written,
 * is what a model of plain numbers says. Words: the seed, and how many calls. */
#include "freeze_queue.h"
#include "../random_calls.h"

#include <string.h>

enum { FREEZERS = 3, TAGS = 12, QUEUES = 1 << 16, UNWRITTEN = 12345 };

struct queue {
    uint32_t slots, waiting, out, entered, depth; /* tags that wait, that are out, and that are entered */
    uint64_t number, kills, releases;
    freeze_queue_limits limits;
};

static struct queue queues[QUEUES];
static struct queue *next_queue = queues;
static struct { freeze_queue handle; struct queue *queue; } freezers[FREEZERS];
static struct { freeze_queue_tag handle; struct queue *queue; bool entered; } tags[TAGS];

static void are(const freeze_queue_limits *limits, const freeze_queue_limits *want)
{
    IS(limits->hardware, want->hardware);
    IS(limits->max, want->max);
    IS(limits->chunk, want->chunk);
    IS(limits->physical, want->physical);
}

static const freeze_queue_limits unwritten = {UNWRITTEN, UNWRITTEN, UNWRITTEN, UNWRITTEN};

/* Mostly limits that are allowed, near to each bound. */
static freeze_queue_limits some_limits(void)
{
    static const uint32_t hardware[] = {0, 1, 7, 8, 8, 8, 8, 100, 65535, 65536, UINT32_MAX};
    static const uint32_t chunks[] = {0, 0, 1, 3, 8, 12, 128, 65535, 65536, UINT32_MAX};
    static const uint32_t physical[] = {1, 1, 2, 4, 8, 32768, 1, 2, 0, 3, 65536, UINT32_MAX};
    freeze_queue_limits limits;
    limits.hardware = hardware[any_below(sizeof hardware / sizeof *hardware)];
    limits.max = any_below(4) ? any_below(limits.hardware < 65536 ? limits.hardware + 1 : 9) : any_below(70000);
    limits.chunk = chunks[any_below(sizeof chunks / sizeof *chunks)];
    limits.physical = physical[any_below(sizeof physical / sizeof *physical)];
    return limits;
}

/* A size of a physical block is one of sixteen; 0 asks for the least. */
static bool is_physical(uint32_t sectors)
{
    if (sectors == 0)
        return true;
    for (uint32_t size = 1; size <= 32768; size *= 2)
        if (size == sectors)
            return true;
    return false;
}

static uint32_t refusal_of(const freeze_queue_limits *limits)
{
    return limits->hardware - 1u > 65534        ? FREEZE_QUEUE_ERR_HARDWARE_RANGE
           : limits->max > limits->hardware     ? FREEZE_QUEUE_ERR_ABOVE_HARDWARE
           : limits->chunk > 65535              ? FREEZE_QUEUE_ERR_CHUNK_TOO_LARGE
           : !is_physical(limits->physical)     ? FREEZE_QUEUE_ERR_BAD_PHYSICAL
                                                : FREEZE_QUEUE_OK;
}

static freeze_queue_limits kept(freeze_queue_limits limits)
{
    if (limits.max == 0)
        limits.max = limits.hardware;
    if (limits.physical == 0)
        limits.physical = 1;
    return limits;
}

static bool drained(const struct queue *q) { return q->depth > 0 && q->entered == 0; }

/* Mostly a slot of the queue. */
static uint32_t some_slot(const struct queue *q)
{
    return q && any_below(8) ? any_below(q->slots) : any_below(70);
}

static void make(uint32_t f)
{
    uint32_t slots = any_below(6) ? 1 + any_below(4) : any_below(600);
    uint32_t out = any_below(6) ? 1 + any_below(4) : any_below(1200);
    freeze_queue_limits limits = some_limits();
    bool fits = slots >= 1 && slots <= 512 && out >= 1 && out <= 1023;
    uint32_t want = freezers[f].queue ? FREEZE_QUEUE_ERR_OPEN : refusal_of(&limits);
    if (want == FREEZE_QUEUE_OK && !fits)
        want = FREEZE_QUEUE_ERR_BAD_SIZE;
    IS(freeze_queue_new(&freezers[f].handle, &limits, slots, out), want);
    if (want)
        return;
    *next_queue = (struct queue){.slots = slots, .waiting = out, .limits = kept(limits)};
    next_queue->number = freeze_queue_number(&freezers[f].handle);
    IS(next_queue->number > (next_queue == queues ? 0 : next_queue[-1].number), true); /* no other queue has it */
    freezers[f].queue = next_queue++;
}

static void give(uint32_t f, uint32_t t)
{
    struct queue *q = freezers[f].queue;
    uint32_t want = !q              ? FREEZE_QUEUE_ERR_CLOSED
                    : tags[t].queue ? FREEZE_QUEUE_ERR_OPEN
                    : q->waiting    ? FREEZE_QUEUE_OK
                                    : FREEZE_QUEUE_ERR_NO_TAG;
    IS(freeze_queue_next_tag(&freezers[f].handle, &tags[t].handle), want);
    if (want)
        return;
    q->waiting--;
    q->out++;
    tags[t].queue = q;
    tags[t].entered = false;
}

static void take_back(uint32_t f, uint32_t t)
{
    struct queue *q = freezers[f].queue;
    uint32_t want = !q || !tags[t].queue ? FREEZE_QUEUE_ERR_CLOSED
                    : tags[t].queue != q ? FREEZE_QUEUE_ERR_OTHER_QUEUE
                    : tags[t].entered    ? FREEZE_QUEUE_ERR_ALREADY_ENTERED
                                         : FREEZE_QUEUE_OK;
    IS(freeze_queue_give_tag_back(&freezers[f].handle, &tags[t].handle), want);
    if (want)
        return;
    q->waiting++;
    q->out--;
    tags[t].queue = NULL;
}

static void end(uint32_t f)
{
    struct queue *q = freezers[f].queue;
    freeze_queue_final last = {.kills = UNWRITTEN};
    uint32_t want = !q ? FREEZE_QUEUE_ERR_CLOSED : q->out ? FREEZE_QUEUE_ERR_TAGS_OUT : FREEZE_QUEUE_OK;
    IS(freeze_queue_remove(&freezers[f].handle, &last), want);
    if (want) {
        IS(last.kills, UNWRITTEN);
        return;
    }
    bool live = q->depth == 0; /* it is frozen once more, and drained by that */
    IS(last.dead, true);
    IS(last.kills, q->kills + live);
    IS(last.releases, q->releases + live);
    are(&last.limits, &q->limits);
    freezers[f].queue = NULL;
}

static void enter(uint32_t t, bool frozen_too)
{
    struct queue *q = tags[t].queue;
    uint32_t slot = some_slot(q);
    uint32_t want = !q                ? FREEZE_QUEUE_ERR_CLOSED
                    : slot >= q->slots ? FREEZE_QUEUE_ERR_BAD_SLOT
                    : tags[t].entered ? FREEZE_QUEUE_ERR_ALREADY_ENTERED
                    : (frozen_too ? drained(q) : q->depth > 0) ? FREEZE_QUEUE_NOT_ENTERED
                                                               : FREEZE_QUEUE_OK;
    IS((frozen_too ? freeze_queue_try_enter_frozen : freeze_queue_try_enter)(&tags[t].handle, slot), want);
    if (want)
        return;
    q->entered++;
    tags[t].entered = true;
}

/* What leave refuses; FREEZE_QUEUE_OK if nothing. */
static uint32_t refused_of_entered(uint32_t t, uint32_t slot)
{
    const struct queue *q = tags[t].queue;
    return !q                 ? FREEZE_QUEUE_ERR_CLOSED
           : slot >= q->slots ? FREEZE_QUEUE_ERR_BAD_SLOT
           : !tags[t].entered ? FREEZE_QUEUE_ERR_TAG_NOT_ENTERED
                              : FREEZE_QUEUE_OK;
}

static void leave(uint32_t t)
{
    struct queue *q = tags[t].queue;
    uint32_t slot = some_slot(q);
    uint32_t want = refused_of_entered(t, slot);
    if (!want) {
        tags[t].entered = false;
        q->entered--;
        want = drained(q) ? FREEZE_QUEUE_LAST : FREEZE_QUEUE_OK;
        q->releases += want;
    }
    IS(freeze_queue_leave(&tags[t].handle, slot), want);
}

static void look(uint32_t t)
{
    struct queue *q = tags[t].queue;
    freeze_queue_limits limits = unwritten;
    uint32_t want = !q ? FREEZE_QUEUE_ERR_CLOSED : !tags[t].entered ? FREEZE_QUEUE_ERR_TAG_NOT_ENTERED : FREEZE_QUEUE_OK;
    IS(freeze_queue_limits_of(&tags[t].handle, &limits), want);
    are(&limits, want ? &unwritten : &q->limits);
    IS(freeze_queue_tag_number(&tags[t].handle), q ? q->number : 0);
}

static void freeze(uint32_t f)
{
    struct queue *q = freezers[f].queue;
    uint32_t depth = UNWRITTEN;
    if (!q) {
        IS(freeze_queue_start_freeze(&freezers[f].handle, &depth), FREEZE_QUEUE_ERR_CLOSED);
        IS(depth, UNWRITTEN);
        return;
    }
    bool first = q->depth++ == 0;
    q->kills += first;
    q->releases += first && drained(q);
    IS(freeze_queue_start_freeze(&freezers[f].handle, &depth), drained(q) ? FREEZE_QUEUE_DRAINED : FREEZE_QUEUE_OK);
    IS(depth, q->depth);
}

static void thaw(uint32_t f)
{
    struct queue *q = freezers[f].queue;
    uint32_t depth = UNWRITTEN, want = !q ? FREEZE_QUEUE_ERR_CLOSED : q->depth ? FREEZE_QUEUE_OK : FREEZE_QUEUE_ERR_NOT_FROZEN;
    if (!want && --q->depth == 0)
        want = FREEZE_QUEUE_LIVE_AGAIN;
    IS(freeze_queue_thaw(&freezers[f].handle, &depth), want);
    IS(depth, freeze_queue_is_refused(want) ? UNWRITTEN : q->depth);
}

static void set(uint32_t f)
{
    struct queue *q = freezers[f].queue;
    freeze_queue_limits limits = some_limits();
    if (q && any_below(3))
        limits.hardware = q->limits.hardware;
    uint32_t want = q ? refusal_of(&limits) : FREEZE_QUEUE_ERR_CLOSED;
    if (want == FREEZE_QUEUE_OK)
        want = limits.hardware != q->limits.hardware ? FREEZE_QUEUE_ERR_OTHER_HARDWARE
               : q->depth == 0                       ? FREEZE_QUEUE_ERR_NOT_FROZEN
               : q->entered                          ? FREEZE_QUEUE_ERR_NOT_DRAINED
                                                     : FREEZE_QUEUE_OK;
    IS(freeze_queue_set(&freezers[f].handle, &limits), want);
    if (!want)
        q->limits = kept(limits);
}

static void ask(uint32_t f)
{
    struct queue *q = freezers[f].queue;
    uint32_t want = q ? FREEZE_QUEUE_OK : FREEZE_QUEUE_ERR_CLOSED, depth = UNWRITTEN, mode = any_below(3);
    freeze_queue_limits limits = unwritten;
    IS(freeze_queue_poll_drained(&freezers[f].handle), q && drained(q));
    IS(freeze_queue_number(&freezers[f].handle), q ? q->number : 0);
    IS(freeze_queue_depth(&freezers[f].handle, &depth), want);
    IS(depth, q ? q->depth : UNWRITTEN);
    IS(freeze_queue_limits_in_force(&freezers[f].handle, &limits), want);
    are(&limits, q ? &q->limits : &unwritten);
    IS(freeze_queue_mode(&freezers[f].handle, mode), q && mode == 2 ? FREEZE_QUEUE_ERR_BAD_MODE : want);
}

/* Whether `length` sectors from start on are within the reach there, told sector by sector. */
static bool within_reach(const freeze_queue_limits *limits, uint64_t start, uint32_t length)
{
    if (length > limits->max)
        return false;
    for (uint64_t at = start + 1; limits->chunk && at < start + length; at++)
        if (at % limits->chunk == 0)
            return false;
    return true;
}

/* The first piece by its definition: all, where it is within the reach; else the greatest within it that ends with a
 * physical block; else the greatest. (For small limits, since it looks at each length.) */
static uint32_t piece_of(const freeze_queue_limits *limits, uint64_t start, uint32_t count)
{
    uint32_t greatest = 0, with_block = 0;
    for (uint32_t length = 1; length <= count && within_reach(limits, start, length); length++) {
        greatest = length;
        if ((start + length) % limits->physical == 0)
            with_block = length;
    }
    return greatest == count || with_block == 0 ? greatest : with_block;
}

static void cut(void)
{
    static const uint32_t counts[] = {0, 1, 2, 5, 8, 9, 100, 4000};
    freeze_queue_limits limits = some_limits();
    uint32_t piece = UNWRITTEN, count = counts[any_below(sizeof counts / sizeof *counts)];
    uint64_t start = any_below(3) ? any_below(5000) : ((uint64_t)1 << 33) - 1 - any_below(50) + any_below(2) * 50;
    limits.hardware = any_below(3) ? 60 : limits.hardware;
    limits.max = limits.max > 70 ? 33 : limits.max;
    uint32_t want = refusal_of(&limits);
    if (want == FREEZE_QUEUE_OK && (count == 0 || start >= (uint64_t)1 << 33))
        want = FREEZE_QUEUE_ERR_BAD_RANGE;
    IS(freeze_queue_first_piece(&limits, start, count, &piece), want);
    limits = kept(limits);
    IS(piece, want ? UNWRITTEN : piece_of(&limits, start, count));
}

static void let_go(uint32_t f, uint32_t t)
{
    if (any_below(2)) {
        freeze_queue_free(&freezers[f].handle);
        freezers[f].queue = NULL;
    } else {
        freeze_queue_free_tag(&tags[t].handle); /* entered, it stays so for ever, and it is out for ever */
        tags[t].queue = NULL;
    }
}

static void call(uint32_t f, uint32_t t)
{
    switch (any_below(30)) {
    case 0: case 1: make(f); break;
    case 2: case 3: case 4: give(f, t); break;
    case 5: case 6: take_back(f, t); break;
    case 7: end(f); break;
    case 8: case 9: case 10: case 11: enter(t, false); break;
    case 12: case 13: enter(t, true); break;
    case 14: case 15: case 16: case 17: case 18: leave(t); break;
    case 19: look(t); break;
    case 20: case 21: freeze(f); break;
    case 22: case 23: case 24: thaw(f); break;
    case 25: case 26: set(f); break;
    case 27: ask(f); break;
    case 28: cut(); break;
    default: if (any_below(20) == 0) let_go(f, t);
    }
}

int main(int argc, char **argv)
{
    seed = argc > 1 ? strtoull(argv[1], NULL, 10) : 1;
    long most = argc > 2 ? atol(argv[2]) : 1000000;
    for (calls = 0; calls < most && next_queue < queues + QUEUES; calls++) {
        call(any_below(FREEZERS), any_below(TAGS));
        for (int i = 0; i < TAGS; i++)
            IS(tags[i].handle.is_open, tags[i].queue != NULL);
        for (int i = 0; i < FREEZERS; i++)
            IS(freezers[i].handle.is_open, freezers[i].queue != NULL);
    }
    for (int i = 0; i < TAGS; i++)
        freeze_queue_free_tag(&tags[i].handle);
    for (int i = 0; i < FREEZERS; i++)
        freeze_queue_free(&freezers[i].handle);
    printf("%ld calls, %ld queues\n", calls, (long)(next_queue - queues));
    return 0;
}
