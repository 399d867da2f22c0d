/* A small service on the queue. Threads that come and go take a tag from a pool for each request. A change of the limits has a
 * deadline; on timeout the program lists the tags that are out. The end lets each thread go, and frees everything. */
#define _POSIX_C_SOURCE 200809L
#include <freeze_queue_pool.h>

#include <pthread.h>
#include <semaphore.h>
#include <stdio.h>
#include <stdlib.h>

enum { SLOTS = 4, TAGS = 8, WORKERS = 4, VISITORS = 100, MILLISECOND = 1000000 };

static freeze_queue queue; /* all zero: closed */
static freeze_queue_waits waits;
static freeze_queue_pool *pool;
static sem_t entered, go_on; /* of the request that hangs */
static uint64_t sectors;     /* what the device was sent */

static void need(freeze_queue_answer answer, const char *call)
{
    if (!freeze_queue_is_refused(answer))
        return;
    fprintf(stderr, "%s: %s\n", call, freeze_queue_text(answer));
    exit(1);
}

/* The slot of this thread: a number from a counter, taken once. */
static uint32_t my_slot(void)
{
    static uint32_t threads;
    static _Thread_local uint32_t number;
    if (number == 0)
        number = __atomic_add_fetch(&threads, 1, __ATOMIC_RELAXED);
    return number % SLOTS;
}

/* A request of 20 sectors on any thread: OK, or ERR_DYING once the service ends. */
static freeze_queue_answer serve(void)
{
    freeze_queue_limits limits;
    uint32_t piece, slot = my_slot();
    freeze_queue_tag *tag;
    if (freeze_queue_pool_take_waiting(pool, slot, NULL, &tag) != FREEZE_QUEUE_OK) /* the pool ends */
        return FREEZE_QUEUE_ERR_DYING;
    freeze_queue_answer answer = freeze_queue_waits_enter(&waits, tag, slot, NULL);
    if (answer == FREEZE_QUEUE_OK) {
        need(freeze_queue_limits_of(tag, &limits), "limits_of");
        for (uint32_t at = 0; at < 20; at += piece) {
            need(freeze_queue_first_piece(&limits, at, 20 - at, &piece), "first_piece");
            __atomic_add_fetch(&sectors, piece, __ATOMIC_RELAXED); /* here the command goes to the device */
        }
        need(freeze_queue_waits_leave(&waits, tag, slot), "leave");
    }
    need(freeze_queue_pool_give(pool, tag), "give");
    return answer;
}

static void *work(void *unused) /* until the service ends */
{
    while (serve() == FREEZE_QUEUE_OK)
        ;
    return unused;
}

static void *visit(void *unused) /* one request, and gone */
{
    need(serve(), "serve");
    return unused;
}

static void *hang(void *unused) /* a request whose device doesn't answer for a while */
{
    freeze_queue_tag *tag;
    need(freeze_queue_pool_take_waiting(pool, 2, NULL, &tag), "take_waiting");
    need(freeze_queue_waits_enter(&waits, tag, 2, NULL), "enter");
    sem_post(&entered);
    sem_wait(&go_on);
    need(freeze_queue_waits_leave(&waits, tag, 2), "leave");
    need(freeze_queue_pool_give(pool, tag), "give");
    return unused;
}

static pthread_t started(void *(*function)(void *))
{
    pthread_t thread;
    need(pthread_create(&thread, NULL, function, NULL) ? FREEZE_QUEUE_ERR_NO_MEMORY : FREEZE_QUEUE_OK, "pthread_create");
    return thread;
}

static uint32_t set_max(freeze_queue_limits *limits, void *max)
{
    limits->max = *(uint32_t *)max;
    return FREEZE_QUEUE_OK;
}

/* Changes one limit, and gives up after `milliseconds`, unless that is 0. Then it lists the tags that are out. */
static void change(uint32_t max, uint32_t milliseconds)
{
    freeze_queue_taken in_flight[TAGS];
    struct timespec deadline = freeze_queue_deadline((uint64_t)milliseconds * MILLISECOND);
    freeze_queue_answer answer = freeze_queue_waits_update(&waits, set_max, &max, milliseconds ? &deadline : NULL);
    printf("at most %u: %s\n", max, freeze_queue_text(answer));
    if (answer != FREEZE_QUEUE_ERR_TIMED_OUT)
        return;
    for (uint32_t i = 0, count = freeze_queue_pool_in_flight(pool, in_flight, TAGS); i < count; i++)
        printf("in flight: tag %u, since %s, taken with hint %u\n", in_flight[i].place,
               in_flight[i].since ? "a time that is noted" : "an unknown time", in_flight[i].slot);
}

static void begin(void)
{
    freeze_queue_limits limits = {.hardware = 64, .max = 0, .chunk = 0, .physical = 1};
    need(freeze_queue_new(&queue, &limits, SLOTS, TAGS), "new");
    need(freeze_queue_waits_init(&waits, &queue), "init");
    need((pool = freeze_queue_pool_new()) == NULL ? FREEZE_QUEUE_ERR_NO_MEMORY : FREEZE_QUEUE_OK, "pool_new");
    need(freeze_queue_pool_fill(pool, &waits, TAGS), "fill");
    freeze_queue_pool_watch(pool, true); /* notes when each tag is taken */
}

/* Every waiting or later enter returns ERR_DYING; each tag comes back; and the queue is removed. */
static void end(pthread_t *workers, freeze_queue_final *last)
{
    need(freeze_queue_waits_mark_dying(&waits), "mark_dying");
    need(freeze_queue_pool_end(pool, NULL), "pool_end");
    for (int i = 0; i < WORKERS; i++)
        pthread_join(workers[i], NULL);
    need(freeze_queue_pool_free(pool), "pool_free");
    need(freeze_queue_waits_end(&waits, last, NULL), "end");
}

int main(void)
{
    freeze_queue_final last;
    pthread_t workers[WORKERS], hanging;
    if (sem_init(&entered, 0, 0) || sem_init(&go_on, 0, 0))
        return 1;
    begin();
    hanging = started(hang);
    sem_wait(&entered);
    change(8, 50); /* it gives up and thaws: requests go on under the old limits */
    sem_post(&go_on);
    pthread_join(hanging, NULL);
    change(8, 0);
    for (int i = 0; i < WORKERS; i++)
        workers[i] = started(work);
    for (int i = 0; i < VISITORS; i++)
        pthread_join(started(visit), NULL);
    change(5, 0);
    end(workers, &last);
    printf("frozen %d times, at most %u sectors, whole requests: %s\n", (int)last.kills, last.limits.max,
           sectors % 20 == 0 ? "yes" : "no");
    return 0;
}
