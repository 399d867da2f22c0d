/* Each allocation of a whole life of a queue is refused in turn: a number is answered, nothing is lost and nothing leaks
 * (../refused.h). Then a pool, and tags that are freed. */
#define _POSIX_C_SOURCE 200809L
#define OF_QUEUE
#include "freeze_queue_pool.h"

#include "../refused.h"

static const freeze_queue_limits limits = {.hardware = 8, .max = 3, .chunk = 0, .physical = 1};

static uint32_t uses(owner *of, seat *seats)
{
    uint32_t depth;
    return freeze_queue_try_enter(&seats[0], 0) || freeze_queue_leave(&seats[0], 0) ||
           freeze_queue_start_freeze(of, &depth) != FREEZE_QUEUE_DRAINED || freeze_queue_set(of, &limits) ||
           freeze_queue_thaw(of, &depth) != FREEZE_QUEUE_LIVE_AGAIN;
}

static bool is_as_made(const final *last) { return last->limits.max == 3; }

/* A pool that is refused a tag gives back those that it was given. */
static int fills(void)
{
    freeze_queue freezer = {0};
    static freeze_queue_pool pool;
    static freeze_queue_waits waits;
    freeze_queue_final last;
    if (freeze_queue_new(&freezer, &limits, 2, 3) || freeze_queue_waits_init(&waits, &freezer))
        return 1;
    long allow = 0;
    for (uint32_t answer = FREEZE_QUEUE_ERR_NO_MEMORY; answer != FREEZE_QUEUE_OK; allow++) {
        allowed = allow;
        answer = freeze_queue_pool_fill(&pool, &waits, 3);
        allowed = -1;
        if (answer != FREEZE_QUEUE_OK && answer != FREEZE_QUEUE_ERR_NO_MEMORY)
            return 2;
    }
    return allow < 3 || freeze_queue_pool_empty(&pool) || freeze_queue_waits_end(&waits, &last, NULL);
}

/* A tag that is freed is out for ever, and one that was entered holds each drain off. */
static int freed_tags(void)
{
    freeze_queue freezer = {0};
    freeze_queue_tag tag = {0};
    freeze_queue_final last;
    uint32_t depth;
    if (freeze_queue_new(&freezer, &limits, 1, 2) || freeze_queue_next_tag(&freezer, &tag) ||
        freeze_queue_try_enter(&tag, 0))
        return 1;
    freeze_queue_free_tag(&tag);
    if (freeze_queue_start_freeze(&freezer, &depth) != FREEZE_QUEUE_OK || freeze_queue_poll_drained(&freezer))
        return 2;
    if (freeze_queue_remove(&freezer, &last) != FREEZE_QUEUE_ERR_TAGS_OUT || !freezer.is_open)
        return 3;
    freeze_queue_free(&freezer);
    return freeze_queue_remove(&freezer, &last) != FREEZE_QUEUE_ERR_CLOSED;
}

int main(void)
{
    return refused_as_it_is() ? 1 : fills() ? 2 : freed_tags() ? 3 : blocks != 0 ? 4 : 0;
}
