/* The program of docs/C.md: limits that change before a request enters. */
#include <freeze_queue_waits.h>
#include <stdio.h>
#define TRY(call) if ((call) != FREEZE_QUEUE_OK) return 1

static freeze_queue queue; /* all zero: closed */
static freeze_queue_waits waits;
static freeze_queue_tag tag;

int main(void)
{
    freeze_queue_limits limits = {.hardware = 64, .max = 64, .chunk = 0, .physical = 1}; /* sectors */
    TRY(freeze_queue_new(&queue, &limits, 1, 1));        /* one slot, one tag */
    TRY(freeze_queue_waits_init(&waits, &queue));
    TRY(freeze_queue_waits_next_tag(&waits, &tag));
    limits.max = 8;
    TRY(freeze_queue_waits_change(&waits, &limits, NULL)); /* freezes, drains, sets, thaws */
    TRY(freeze_queue_waits_enter(&waits, &tag, 0, NULL));  /* slot 0, no deadline: waits while frozen */
    TRY(freeze_queue_limits_of(&tag, &limits));            /* stay the same until the tag leaves */
    printf("at most %u sectors\n", limits.max);
    return (int)freeze_queue_waits_leave(&waits, &tag, 0);
}
