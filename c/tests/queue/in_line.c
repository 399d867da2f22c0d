/* Calls get the lock of the waits, and the turn to change the limits, in the order in which they came; and few changes by others pass a call
 * that waits for its turn. in_line ROUNDS */
#define _POSIX_C_SOURCE 200809L
#include "inline.h"
#include "freeze_queue.h"

#include "../is.h"
#include "../moment.h"
#include "../need.h"
#include <pthread.h>
#include <stdio.h>
#include <stdlib.h>

enum { CALLS = 5, CHANGERS = 2, MOST_PASS = 50 };

static int order[CALLS], ran; /* written under the lock, or in a turn */
static __thread int me;

static freeze_queue_answer notes(freeze_queue_answer answer)
{
    order[ran++] = me;
    return answer;
}
#define freeze_queue_mode(of, mode) notes(freeze_queue_mode(of, mode))
#include "freeze_queue_waits.h"

static freeze_queue queue;
static freeze_queue_waits waits;

static uint32_t notes_turn(freeze_queue_limits *limits, void *nothing)
{
    (void)nothing;
    limits->max = 8;
    return notes(FREEZE_QUEUE_OK);
}

static void *takes_lock(void *number)
{
    me = *(int *)number;
    need(freeze_queue_waits_mode(&waits, FREEZE_QUEUE_MODE_SLOTS) == FREEZE_QUEUE_OK, "the mode");
    return NULL;
}
static void *takes_turn(void *number)
{
    me = *(int *)number;
    need(freeze_queue_waits_update(&waits, notes_turn, NULL, NULL) == FREEZE_QUEUE_OK, "an update");
    return NULL;
}

/* How many calls stand in a line. That of the turns is read under the lock, the other under the guard. */
static int count_line(const freeze_queue_line *line)
{
    int count = 0;
    for (const freeze_queue_waiter *one = line->first; one != NULL; one = one->after)
        count++;
    return count;
}
static int count_turns(void)
{
    freeze_queue_waits_lock(IN_WAITS);
    const int count = count_line(&IN_WAITS->turns);
    freeze_queue_waits_unlock(IN_WAITS);
    return count;
}
static int count_locks(void)
{
    freeze_queue_locks(&IN_WAITS->guard);
    const int count = count_line(&IN_WAITS->line);
    pthread_mutex_unlock(&IN_WAITS->guard);
    return count;
}

/* Begins calls, each once the one before it stands in line. */
static pthread_t threads[CALLS];
static int numbers[CALLS] = {0, 1, 2, 3, 4};
static void stand_in_line(void *(*call)(void *), int (*counts)(void))
{
    ran = 0;
    for (int i = 0; i < CALLS; i++) {
        need(pthread_create(&threads[i], NULL, call, &numbers[i]) == 0, "a thread");
        while (counts() <= i)
            gives_way();
    }
}
static void came_in_order(void)
{
    for (int i = 0; i < CALLS; i++)
        pthread_join(threads[i], NULL);
    for (int i = 0; i < CALLS; i++)
        TELLS(order[i], i);
}

static void the_lock(void)
{
    freeze_queue_waits_lock(IN_WAITS);
    stand_in_line(takes_lock, count_locks);
    freeze_queue_waits_unlock(IN_WAITS);
    came_in_order();
}

static uint32_t others_stand_in_line(freeze_queue_limits *limits, void *nothing)
{
    (void)limits, (void)nothing;
    stand_in_line(takes_turn, count_turns);
    return FREEZE_QUEUE_OK;
}
static void the_turn(void)
{
    need(freeze_queue_waits_update(&waits, others_stand_in_line, NULL, NULL) == FREEZE_QUEUE_OK, "the first update");
    came_in_order();
}

/* Threads change the limits without a pause. Few of their changes come between the beginning and the end of another's, as a rule: a thread that
 * is put off its processor before it stands in line sees more of them. */
static long changes;
static bool is_over;
static void *changes_on(void *nothing)
{
    const freeze_queue_limits next = {64, 8, 0, 0};
    while (!__atomic_load_n(&is_over, __ATOMIC_RELAXED)) {
        need(freeze_queue_waits_change(&waits, &next, NULL) == FREEZE_QUEUE_OK, "a change");
        __atomic_fetch_add(&changes, 1, __ATOMIC_RELAXED);
    }
    return nothing;
}
static void few_pass(long rounds)
{
    const freeze_queue_limits next = {64, 9, 0, 0};
    pthread_t changers[CHANGERS];
    long most = 0;
    for (int i = 0; i < CHANGERS; i++)
        need(pthread_create(&changers[i], NULL, changes_on, NULL) == 0, "a thread");
    const long from = __atomic_load_n(&changes, __ATOMIC_RELAXED);
    for (long i = 0; i < rounds; i++) {
        const long before = __atomic_load_n(&changes, __ATOMIC_RELAXED);
        need(freeze_queue_waits_change(&waits, &next, NULL) == FREEZE_QUEUE_OK, "a change");
        const long passed = __atomic_load_n(&changes, __ATOMIC_RELAXED) - before;
        most = passed > most ? passed : most;
    }
    const long all = __atomic_load_n(&changes, __ATOMIC_RELAXED) - from;
    __atomic_store_n(&is_over, true, __ATOMIC_RELAXED);
    for (int i = 0; i < CHANGERS; i++)
        pthread_join(changers[i], NULL);
    TELLS(all <= MOST_PASS * rounds, true);
    printf("%.2f changes passed one, and at most %ld\n", (double)all / (double)rounds, most);
}

int main(int count, char **words)
{
    const freeze_queue_limits limits = {.hardware = 64};
    const long rounds = count > 1 ? atol(words[1]) : 0;
    freeze_queue_final last;
    need(rounds > 0, "how many rounds?");
    need(freeze_queue_new(&queue, &limits, 1, 1) == 0 && freeze_queue_waits_init(&waits, &queue) == 0, "a queue");
    for (long i = 0; i < rounds; i++) {
        the_lock();
        the_turn();
    }
    few_pass(100 * rounds);
    need(freeze_queue_waits_end(&waits, &last, NULL) == FREEZE_QUEUE_OK, "the end");
    printf("%s\n", failures ? "FAILED" : "each in its turn");
    return failures != 0;
}
