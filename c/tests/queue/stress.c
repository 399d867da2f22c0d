/* Four threads enter and leave by the bare calls, half of them to look at a frozen queue too, while it is frozen, drained
 * or not, switched, set and thawed. Each drain that the freezer waits for is told to one of them. Words: rounds of a
 * thread, and the least number of freezes. */
#include "freeze_queue.h"

#include <pthread.h>
#include <stdatomic.h>
#include <stdio.h>
#include <stdlib.h>

enum { THREADS = 4 };

static struct submitter {
    _Alignas(128) freeze_queue_tag tag;
    pthread_t thread;
    uint32_t slot;
    long rounds;
} submitters[THREADS];

static freeze_queue freezer;
static freeze_queue_limits setting = {.hardware = 64, .max = 64, .chunk = 0, .physical = 1};
static atomic_int running = THREADS;
static atomic_ulong told;

static void look(struct submitter *me)
{
    freeze_queue_limits limits, again;
    if (freeze_queue_limits_of(&me->tag, &limits) || freeze_queue_limits_of(&me->tag, &again))
        abort();
    if (limits.max != again.max || limits.chunk != again.chunk || limits.chunk != (64 - limits.max) * 2)
        abort();
}

static void *submit(void *of)
{
    struct submitter *me = of;
    for (long i = 0; i < me->rounds; i++) {
        bool looks = me->slot % 2 && i % 16 == 0;
        uint32_t answer = looks ? freeze_queue_try_enter_frozen(&me->tag, me->slot) : freeze_queue_try_enter(&me->tag, me->slot);
        if (answer == FREEZE_QUEUE_OK) {
            look(me);
            answer = freeze_queue_leave(&me->tag, (me->slot + 1) % THREADS);
        }
        if (freeze_queue_is_refused(answer))
            abort();
        if (freeze_queue_is_drained(answer))
            atomic_fetch_add(&told, 1);
    }
    atomic_fetch_sub(&running, 1);
    return NULL;
}

/* Waits for the drain in two of three freezes: then whoever was last is told, unless the freeze drained it itself. */
static void one_freeze(long i, uint64_t *drained_here)
{
    uint32_t depth;
    unsigned long before = atomic_load(&told);
    uint32_t answer = freeze_queue_start_freeze(&freezer, &depth);
    if (depth != 1 || freeze_queue_is_refused(answer))
        abort();
    if (i % 3 > 0) {
        while (!freeze_queue_poll_drained(&freezer)) {}
        while (answer == FREEZE_QUEUE_OK && atomic_load(&told) == before) {}
        setting.max = 1 + (uint32_t)i % 64;
        setting.chunk = (64 - setting.max) * 2;
        if (freeze_queue_set(&freezer, &setting) || freeze_queue_start_freeze(&freezer, &depth) != FREEZE_QUEUE_DRAINED ||
            freeze_queue_thaw(&freezer, &depth) || depth != 1)
            abort();
    }
    *drained_here += answer == FREEZE_QUEUE_DRAINED;
    if (i % 5 == 0 && freeze_queue_mode(&freezer, i % 2 ? FREEZE_QUEUE_MODE_ATOMIC : FREEZE_QUEUE_MODE_SLOTS))
        abort();
    if (freeze_queue_thaw(&freezer, &depth) != FREEZE_QUEUE_LIVE_AGAIN || depth != 0)
        abort();
    if (i % 7 == 0 && freeze_queue_mode(&freezer, i % 2 ? FREEZE_QUEUE_MODE_SLOTS : FREEZE_QUEUE_MODE_ATOMIC))
        abort();
}

int main(int argc, char **argv)
{
    long rounds = argc > 1 ? atol(argv[1]) : 1000000, freezes = argc > 2 ? atol(argv[2]) : 1000, i = 0;
    uint64_t drained_here = 0;
    freeze_queue_final last;
    if (freeze_queue_new(&freezer, &setting, THREADS, THREADS))
        return 1;
    for (uint32_t t = 0; t < THREADS; t++) {
        submitters[t].slot = t;
        submitters[t].rounds = rounds;
        if (freeze_queue_next_tag(&freezer, &submitters[t].tag) ||
            pthread_create(&submitters[t].thread, NULL, submit, &submitters[t]))
            return 2;
    }
    for (; i < freezes || atomic_load(&running) > 0; i++)
        one_freeze(i, &drained_here);
    for (int t = 0; t < THREADS; t++) {
        pthread_join(submitters[t].thread, NULL);
        if (freeze_queue_give_tag_back(&freezer, &submitters[t].tag))
            return 3;
    }
    if (freeze_queue_remove(&freezer, &last) || last.kills != (uint64_t)i + 1 || last.limits.max != setting.max)
        return 4;
    /* A freeze that is drained at once may have been drained by another, who was told. The removal's own is one more. */
    bool as_many = last.releases >= told + 1 && last.releases <= told + drained_here + 1;
    printf("%s\n", as_many ? "as many" : "LOST");
    return !as_many;
}
