/* A refused entering that is the last step of a drain (NOT_ENTERED_LAST) wakes those who wait for the drain, as it seldom
 * does in a race: here the try lets the last tag leave before it answers. */
#define _POSIX_C_SOURCE 200809L
#include "inline.h"
#include "freeze_queue.h"

#include <stdio.h>
#include <stdlib.h>

static freeze_queue freezer;
static freeze_queue_tag inside, outside;

/* What of both is told LAST is told to the try. */
static uint32_t try_that_is_last(freeze_queue_tag *tag, uint32_t slot)
{
    uint32_t answer = freeze_queue_try_enter(tag, slot);
    if (answer != FREEZE_QUEUE_NOT_ENTERED || freeze_queue_leave(&inside, slot) != FREEZE_QUEUE_LAST)
        return answer;
    return FREEZE_QUEUE_NOT_ENTERED_LAST;
}

#undef freeze_queue_try_enter
#define freeze_queue_try_enter try_that_is_last
#include "freeze_queue_waits.h"

static freeze_queue_waits waits;

static void *freeze(void *answer)
{
    *(uint32_t *)answer = freeze_queue_waits_freeze(&waits, NULL);
    return NULL;
}

int main(void)
{
    pthread_t thread;
    uint32_t frozen = UINT32_MAX, depth = 0;
    const freeze_queue_limits limits = {8, 0, 0, 1};
    if (freeze_queue_new(&freezer, &limits, 1, 2) || freeze_queue_waits_init(&waits, &freezer) ||
        freeze_queue_next_tag(&freezer, &inside) || freeze_queue_next_tag(&freezer, &outside))
        return 1;
    if (freeze_queue_waits_enter(&waits, &inside, 0, NULL) || pthread_create(&thread, NULL, freeze, &frozen))
        return 2;
    while (depth == 0)
        if (freeze_queue_waits_depth(&waits, &depth))
            return 3;
    if (freeze_queue_waits_try_enter(&waits, &outside, 0) != FREEZE_QUEUE_NOT_ENTERED)
        return 4;
    pthread_join(thread, NULL);
    printf("%s\n", freeze_queue_text(frozen));
    freeze_queue_free_tag(&inside);
    freeze_queue_free_tag(&outside);
    freeze_queue_free(&freezer);
    freeze_queue_waits_destroy(&waits);
    return frozen != FREEZE_QUEUE_OK;
}
