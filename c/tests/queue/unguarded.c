/* Plain memory that nothing guards: what a thread writes before it freezes the queue is read by one that is refused, or that
 * leaves and isn't the last. The queue orders neither, so this is a race, which the thread sanitizer has to report: a header that
 * tells it of more order than the queue keeps would hide such races of its callers. Word: refused, or left. */
#include "freeze_queue.h"

#include <pthread.h>
#include <sched.h>
#include <stdatomic.h>
#include <stdbool.h>
#include <stdio.h>
#include <string.h>

static freeze_queue freezer;
static freeze_queue_tag tags[2];
int plain;                /* written with no order to who reads it; not static, so that each compiler reads it there */
static atomic_bool is_in; /* both relaxed: they order nothing */
static atomic_bool is_frozen;
static bool by_refusal;

static void wait_for(atomic_bool *sign)
{
    while (!atomic_load_explicit(sign, memory_order_relaxed))
        sched_yield();
}

static void *reads(void *of)
{
    uint32_t answer = by_refusal ? FREEZE_QUEUE_OK : freeze_queue_try_enter(&tags[0], 0);
    atomic_store_explicit(&is_in, true, memory_order_relaxed);
    wait_for(&is_frozen);
    if (by_refusal && freeze_queue_try_enter(&tags[0], 0) == FREEZE_QUEUE_NOT_ENTERED)
        answer = plain;
    if (!by_refusal && freeze_queue_leave(&tags[0], 0) == FREEZE_QUEUE_OK)
        answer = plain;
    return answer == 1 ? of : NULL;
}

int main(int argc, char **argv)
{
    const freeze_queue_limits limits = {8, 0, 0, 1};
    pthread_t reader;
    uint32_t depth;
    void *has_read = NULL;
    by_refusal = argc > 1 && strcmp(argv[1], "refused") == 0;
    if (freeze_queue_new(&freezer, &limits, 2, 2) || freeze_queue_next_tag(&freezer, &tags[0]) ||
        freeze_queue_next_tag(&freezer, &tags[1]) || freeze_queue_try_enter(&tags[1], 1) ||
        pthread_create(&reader, NULL, reads, &tags))
        return 1;
    wait_for(&is_in);
    plain = 1;
    if (freeze_queue_start_freeze(&freezer, &depth) != FREEZE_QUEUE_OK)
        return 1;
    atomic_store_explicit(&is_frozen, true, memory_order_relaxed);
    pthread_join(reader, &has_read);
    printf("%s\n", has_read ? "read" : "NOT READ");
    return has_read == NULL;
}
