/* A queue of each number of slots, of many limits, at each depth, and frozen very often: each call counts on the slot that it names,
 * as the queue's own memory shows, which no program may read, and so behind a million queues; no call says NO_MEMORY or IN_USE.
 * (Linked with --wrap=malloc and free.) */
#include "freeze_queue.h"

#include "../any_below.h"
#include "../inside.h"

enum { MANY_FREEZES = 100000, MANY_QUEUES = 1000000, DRAWN_QUEUES = 200000 };

#define IS(call, want) is(#call, call, FREEZE_QUEUE_##want, __LINE__)

/* A slot's word is this where it is open and nothing is counted on it. */
static const uint64_t EMPTY = (uint64_t)1 << 32;

static freeze_queue freezer;
static freeze_queue_tag tag, other;
static freeze_queue_final last;
static uint32_t depth;

static void make(freeze_queue_limits limits, uint32_t slots)
{
    IS(freeze_queue_new(&freezer, &limits, slots, 2), OK);
    IS(freeze_queue_next_tag(&freezer, &tag), OK);
}

static void end(void)
{
    IS(freeze_queue_give_tag_back(&freezer, &tag), OK);
    IS(freeze_queue_remove(&freezer, &last), OK);
    TELLS(blocks_now(), 0);
}

/* The words of the slots: of each the one that is as told while the tag is in by this slot, and that is empty before and after. */
static uint64_t *slot_word(uint32_t slot)
{
    IS(freeze_queue_try_enter(&tag, slot), OK);
    first_look(EMPTY + 1);
    IS(freeze_queue_leave(&tag, slot), OK);
    look_again(EMPTY);
    return the_word("a slot");
}

/* Each call of each two slots side by side. */
static void slots_of(uint32_t slots)
{
    static uint64_t *words[FREEZE_QUEUE_MOST_SLOTS];
    make((freeze_queue_limits){.hardware = 8}, slots);
    for (uint32_t slot = 0; slot < slots; slot++)
        words[slot] = slot_word(slot);
    for (uint32_t up = 0; up < slots; up++) {
        uint32_t down = (up + 1) % slots;
        IS(freeze_queue_try_enter_frozen(&tag, up), OK);
        TELLS(*words[up], EMPTY + 1);
        IS(freeze_queue_leave(&tag, down), OK);
        TELLS(*words[down], slots == 1 ? EMPTY : EMPTY - 1);
        IS(freeze_queue_try_enter(&tag, down), OK);
        TELLS(*words[down], slots == 1 ? EMPTY + 1 : EMPTY);
        IS(freeze_queue_leave(&tag, up), OK);
        TELLS(*words[up], EMPTY);
    }
    end();
}

static void lives_once(freeze_queue_limits limits)
{
    make(limits, 1);
    end();
}

/* Each maximum and each chunk, each two of the small ones, and each physical block, also one that is greater than the maximum. */
static void many_limits(void)
{
    for (uint32_t n = 0; n <= FREEZE_QUEUE_MOST_HARDWARE; n++) {
        lives_once((freeze_queue_limits){.hardware = FREEZE_QUEUE_MOST_HARDWARE, .max = n});
        lives_once((freeze_queue_limits){.hardware = FREEZE_QUEUE_MOST_HARDWARE, .chunk = n});
    }
    for (uint32_t max = 1; max <= 64; max++)
        for (uint32_t chunk = 1; chunk <= 64; chunk++)
            lives_once((freeze_queue_limits){.hardware = 64, .max = max, .chunk = chunk});
    for (uint32_t block = 1; block <= FREEZE_QUEUE_MOST_PHYSICAL; block *= 2)
        for (uint32_t max = 1; max <= FREEZE_QUEUE_MOST_HARDWARE; max = 2 * max + 1) {
            lives_once((freeze_queue_limits){.hardware = FREEZE_QUEUE_MOST_HARDWARE, .max = max, .physical = block});
            lives_once((freeze_queue_limits){.hardware = max, .chunk = block, .physical = block});
        }
}

/* A number up to 65,535; a small one as often as a great one. */
static uint32_t any_number(void) { return any_below(UINT32_C(2) << any_below(16)); }

/* Limits in which each number is drawn, and a hardware's maximum for them. */
static freeze_queue_limits drawn_limits(uint32_t hardware)
{
    freeze_queue_limits limits = {.hardware = hardware, .max = any_number(), .chunk = any_number()};
    limits.physical = UINT32_C(1) << any_below(16);
    limits.max = limits.max > hardware ? hardware : limits.max;
    return limits;
}

/* What an end tells of limits: those that were set last, with a maximum that was asked for. */
static void were_set(const freeze_queue_limits *limits)
{
    TELLS(last.limits.hardware, limits->hardware);
    TELLS(last.limits.max, limits->max ? limits->max : limits->hardware);
    TELLS(last.limits.chunk, limits->chunk);
    TELLS(last.limits.physical, limits->physical);
}

/* Queues whose limits are drawn all four. Of each second one others are set under a freeze, and it ends frozen, or thawed. */
static void drawn_queues(void)
{
    for (uint32_t i = 0; i < DRAWN_QUEUES; i++) {
        const uint32_t hardware = 1 + any_number() % FREEZE_QUEUE_MOST_HARDWARE;
        freeze_queue_limits limits = drawn_limits(hardware);
        make(limits, 1);
        if (i % 2 == 0) {
            limits = drawn_limits(hardware);
            IS(freeze_queue_start_freeze(&freezer, &depth), DRAINED);
            IS(freeze_queue_set(&freezer, &limits), OK);
            if (i % 4 == 0)
                IS(freeze_queue_thaw(&freezer, &depth), LIVE_AGAIN);
        }
        end();
        were_set(&limits);
    }
}

/* At each depth a tag is given out and taken back, and the depth is told. */
static void each_depth(void)
{
    make((freeze_queue_limits){.hardware = 8}, 1);
    for (uint32_t freezes = 1; freezes <= FREEZE_QUEUE_MOST_DEPTH; freezes++) {
        IS(freeze_queue_start_freeze(&freezer, &depth), DRAINED);
        TELLS(depth, freezes);
        IS(freeze_queue_next_tag(&freezer, &other), OK);
        IS(freeze_queue_give_tag_back(&freezer, &other), OK);
    }
    IS(freeze_queue_start_freeze(&freezer, &depth), ERR_DEPTH_FULL);
    for (uint32_t freezes = FREEZE_QUEUE_MOST_DEPTH; freezes-- > 0;) {
        if (freezes == 0)
            IS(freeze_queue_thaw(&freezer, &depth), LIVE_AGAIN);
        else
            IS(freeze_queue_thaw(&freezer, &depth), OK);
        TELLS(depth, freezes);
    }
    end();
}

static void an_old_queue(void)
{
    make((freeze_queue_limits){.hardware = 8}, 1);
    for (int i = 0; i < MANY_FREEZES; i++) {
        IS(freeze_queue_start_freeze(&freezer, &depth), DRAINED);
        IS(freeze_queue_thaw(&freezer, &depth), LIVE_AGAIN);
    }
    IS(freeze_queue_next_tag(&freezer, &other), OK);
    IS(freeze_queue_try_enter(&other, 0), OK);
    IS(freeze_queue_leave(&other, 0), OK);
    IS(freeze_queue_give_tag_back(&freezer, &other), OK);
    end();
    TELLS(last.kills, MANY_FREEZES + 1);
    TELLS(last.releases, MANY_FREEZES + 1);
}

/* Behind so many queues each call counts on the slot that it names. */
static void late_queues(void)
{
    for (int i = 0; i < MANY_QUEUES; i++)
        lives_once((freeze_queue_limits){.hardware = 8});
    slots_of(4);
}

/* A freezer that is freed at whatever depth thaws nothing. */
static void freed_at_each_depth(void)
{
    for (uint32_t freezes = 1; freezes <= FREEZE_QUEUE_MOST_DEPTH; freezes++) {
        make((freeze_queue_limits){.hardware = 8}, 1);
        IS(freeze_queue_try_enter(&tag, 0), OK);
        for (uint32_t i = 0; i < freezes; i++)
            IS(freeze_queue_start_freeze(&freezer, &depth), OK);
        keep_all();
        freeze_queue_free(&freezer);
        TELLS(words_changed(), 1);
        freeze_queue_free_tag(&tag);
        TELLS(blocks_now(), 0);
    }
}

int main(void)
{
    for (uint32_t slots = 1; slots <= 64; slots++)
        slots_of(slots);
    slots_of(FREEZE_QUEUE_MOST_SLOTS);
    many_limits();
    drawn_queues();
    each_depth();
    an_old_queue();
    freed_at_each_depth();
    late_queues();
    printf("%s\n", failures ? "FAILED" : "lived");
    return failures != 0;
}
