/* A thread that sleeps only in poll. It begins a freeze, sets the limits once the queue is drained, and enters once it is live
 * again. Another thread has a request in flight when the freeze begins. */
#define _GNU_SOURCE
#include <freeze_queue_waits.h>

#include <poll.h>
#include <pthread.h>
#include <stdio.h>
#include <stdlib.h>
#include <unistd.h>

static freeze_queue queue;
static freeze_queue_waits waits;
static freeze_queue_tag busy, mine;

static void need(bool done, const char *what)
{
    if (done)
        return;
    fprintf(stderr, "%s failed\n", what);
    exit(1);
}

/* The rest of a request that has entered: its device takes a while. */
static void *finish(void *unused)
{
    usleep(100 * 1000);
    need(freeze_queue_waits_leave(&waits, &busy, 0) == FREEZE_QUEUE_OK, "leave");
    return unused;
}

/* Sets the limits of the drained queue, and ends the freeze. */
static void set_and_thaw(void)
{
    freeze_queue_limits limits = {.hardware = 64, .max = 8};
    need(freeze_queue_waits_set(&waits, &limits) == FREEZE_QUEUE_OK, "set");
    need(freeze_queue_waits_thaw(&waits) == FREEZE_QUEUE_LIVE_AGAIN, "thaw");
}

/* Begins a freeze while a request waits to enter, and follows the events until both are done. */
static void change_and_enter(void)
{
    uint32_t entered = FREEZE_QUEUE_NOT_ENTERED, begun = freeze_queue_waits_begin_freeze(&waits);
    const int drained = freeze_queue_waits_drained_event(&waits), live = freeze_queue_waits_live_event(&waits);
    bool drains = !freeze_queue_is_refused(begun);
    need(drains, freeze_queue_text(begun));
    while (drains || entered == FREEZE_QUEUE_NOT_ENTERED) {
        struct pollfd events[] = {{drains ? drained : -1, POLLIN, 0}, {live, POLLIN, 0}};
        need(poll(events, 2, -1) > 0, "poll");
        if (drains && freeze_queue_waits_is_drained(&waits)) {
            set_and_thaw();
            drains = false;
        }
        entered = freeze_queue_waits_try_enter(&waits, &mine, 0);
    }
    need(entered == FREEZE_QUEUE_OK, freeze_queue_text(entered));
}

int main(void)
{
    freeze_queue_limits limits = {.hardware = 64};
    freeze_queue_final last;
    pthread_t device;
    need(freeze_queue_new(&queue, &limits, 1, 2) == FREEZE_QUEUE_OK, "new");
    need(freeze_queue_waits_init(&waits, &queue) == FREEZE_QUEUE_OK, "init");
    need(freeze_queue_waits_open_events(&waits) == FREEZE_QUEUE_OK, "open_events");
    need(freeze_queue_waits_next_tag(&waits, &busy) == FREEZE_QUEUE_OK, "next_tag");
    need(freeze_queue_waits_next_tag(&waits, &mine) == FREEZE_QUEUE_OK, "next_tag");
    need(freeze_queue_waits_enter(&waits, &busy, 0, NULL) == FREEZE_QUEUE_OK, "enter");
    need(pthread_create(&device, NULL, finish, NULL) == 0, "pthread_create");
    change_and_enter();
    need(freeze_queue_limits_of(&mine, &limits) == FREEZE_QUEUE_OK, "limits_of");
    printf("entered under at most %u sectors\n", limits.max);
    need(freeze_queue_waits_leave(&waits, &mine, 0) == FREEZE_QUEUE_OK, "leave");
    pthread_join(device, NULL);
    need(freeze_queue_waits_give_tag_back(&waits, &busy) == FREEZE_QUEUE_OK, "give_tag_back");
    need(freeze_queue_waits_give_tag_back(&waits, &mine) == FREEZE_QUEUE_OK, "give_tag_back");
    need(freeze_queue_waits_end(&waits, &last, NULL) == FREEZE_QUEUE_OK, "end");
    printf("frozen %d times, drained %d times\n", (int)last.kills, (int)last.releases);
    return 0;
}
