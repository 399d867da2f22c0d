/* Who is told of a drain: a tag leaves while others try to enter the frozen queue, whose refused tries are counted for a
 * moment. Of each freeze exactly one is told, LAST or NOT_ENTERED_LAST. Both are to be seen, the second of two threads: it is one
 * freeze in some fifty. Words: the least freezes, and the most seconds. */
#define _POSIX_C_SOURCE 200809L
#include "freeze_queue.h"
#include "../moment.h"
#include "../need.h"

#include <pthread.h>
#include <stdatomic.h>
#include <stdio.h>
#include <stdlib.h>
#include <time.h>

enum { TRIERS = 2, LEAVER = TRIERS };

static struct caller {
    _Alignas(128) freeze_queue_tag tag;
    pthread_t thread;
    atomic_long begun, ended; /* freezes */
    uint64_t told[2];         /* by LAST, and by NOT_ENTERED_LAST */
} callers[TRIERS + 1];

static freeze_queue freezer;
static atomic_bool over;

/* Waits for the next freeze; false where there is none. */
static bool next(struct caller *me)
{
    while (atomic_load(&me->begun) == atomic_load(&me->ended))
        if (atomic_load(&over))
            return false;
        else
            gives_way();
    return true;
}

/* Tries again and again, as programs needn't. In one freeze of eight it does so until the tag has left: on one processor too it is
 * interrupted between two steps of a try, then. */
static void *tries(void *of)
{
    struct caller *me = of;
    const bool looks = me == &callers[0]; /* enters the frozen queue, too */
    while (next(me)) {
        const long freeze = atomic_load(&me->begun);
        uint32_t answer = FREEZE_QUEUE_NOT_ENTERED;
        for (long i = 0; i < 40 || (freeze % 8 == 0 && atomic_load(&callers[LEAVER].ended) < freeze); i++) {
            answer = looks && i % 40 > 20 ? freeze_queue_try_enter_frozen(&me->tag, 0) : freeze_queue_try_enter(&me->tag, 0);
            if (answer == FREEZE_QUEUE_OK)
                answer = freeze_queue_leave(&me->tag, 0);
            need(!freeze_queue_is_refused(answer), freeze_queue_text(answer));
            me->told[0] += answer == FREEZE_QUEUE_LAST;
            me->told[1] += answer == FREEZE_QUEUE_NOT_ENTERED_LAST;
        }
        atomic_fetch_add(&me->ended, 1);
    }
    return NULL;
}

static void *leaves(void *of)
{
    struct caller *me = of;
    while (next(me)) {
        for (volatile int i = 0; i < (int)(atomic_load(&me->ended) % 200); i++) {}
        uint32_t answer = freeze_queue_leave(&me->tag, 0);
        need(answer == FREEZE_QUEUE_OK || answer == FREEZE_QUEUE_LAST, freeze_queue_text(answer));
        me->told[0] += answer == FREEZE_QUEUE_LAST;
        atomic_fetch_add(&me->ended, 1);
    }
    return NULL;
}

static void one_freeze(void)
{
    uint32_t depth;
    uint64_t before = 0, after = 0;
    for (int i = 0; i <= LEAVER; i++)
        before += callers[i].told[0] + callers[i].told[1];
    need(freeze_queue_try_enter(&callers[LEAVER].tag, 0) == FREEZE_QUEUE_OK, "no entering");
    need(freeze_queue_start_freeze(&freezer, &depth) == FREEZE_QUEUE_OK, "a freeze");
    for (int i = 0; i <= LEAVER; i++)
        atomic_fetch_add(&callers[i].begun, 1);
    for (int i = 0; i <= LEAVER; i++)
        while (atomic_load(&callers[i].ended) != atomic_load(&callers[i].begun))
            gives_way();
    for (int i = 0; i <= LEAVER; i++)
        after += callers[i].told[0] + callers[i].told[1];
    need(after == before + 1, "a drain is told twice, or to nobody");
    need(freeze_queue_poll_drained(&freezer), "not drained");
    need(freeze_queue_thaw(&freezer, &depth) == FREEZE_QUEUE_LIVE_AGAIN, "a thaw");
}

static bool all_are_seen(void)
{
    return callers[0].told[1] > 0 && callers[1].told[1] > 0 && callers[LEAVER].told[0] > 0;
}

int main(int argc, char **argv)
{
    const freeze_queue_limits limits = {8, 0, 0, 1};
    freeze_queue_final last;
    long freezes = argc > 1 ? atol(argv[1]) : 1000, most = argc > 2 ? atol(argv[2]) : 1000, i = 0;
    bool seen = false;
    time_t begun = time(NULL);
    need(freeze_queue_new(&freezer, &limits, 1, TRIERS + 1) == FREEZE_QUEUE_OK, "no queue");
    for (int t = 0; t <= LEAVER; t++)
        need(freeze_queue_next_tag(&freezer, &callers[t].tag) == FREEZE_QUEUE_OK &&
                 pthread_create(&callers[t].thread, NULL, t == LEAVER ? leaves : tries, &callers[t]) == 0, "no thread");
    for (; i < freezes || !seen; i++) {
        need(freeze_queue_mode(&freezer, i % 2 ? FREEZE_QUEUE_MODE_ATOMIC : FREEZE_QUEUE_MODE_SLOTS) == FREEZE_QUEUE_OK, "a mode");
        one_freeze();
        seen = seen || all_are_seen();
        need(seen || time(NULL) - begun < most, "nobody is told by a try that is refused");
    }
    atomic_store(&over, true);
    for (int t = 0; t <= LEAVER; t++) {
        pthread_join(callers[t].thread, NULL);
        need(freeze_queue_give_tag_back(&freezer, &callers[t].tag) == FREEZE_QUEUE_OK, "a tag");
    }
    need(freeze_queue_remove(&freezer, &last) == FREEZE_QUEUE_OK, "no removal");
    need(last.kills == (uint64_t)i + 1 && last.releases == last.kills, "what is left");
    printf("each once\n");
    return 0;
}
