/* Included by tests of what a call leaves alone, in each mode and under freezes. */
#ifndef IN_A_MODE_H
#define IN_A_MODE_H
#include "../is.h"

#define IS(call, want) is(#call, call, FREEZE_QUEUE_##want, __LINE__)

/* Brings a queue into a mode, and freezes it so often, with tag 2 in, and tag 0 if asked for. */
static void is_in_a_mode(freeze_queue *freezer, freeze_queue_tag *tags, uint32_t slots, uint32_t mode, uint32_t freezes, bool is_in)
{
    uint32_t depth;
    IS(freeze_queue_mode(freezer, mode), OK);
    IS(freeze_queue_try_enter(&tags[2], 1 % slots), OK);
    if (is_in)
        IS(freeze_queue_try_enter(&tags[0], 2 % slots), OK);
    for (uint32_t i = 0; i < freezes; i++)
        IS(freeze_queue_start_freeze(freezer, &depth), OK);
}
#endif
