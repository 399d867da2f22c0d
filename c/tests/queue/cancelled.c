/* A thread that waits for a drain, a thaw or a turn, or runs the function of an update, can't be cancelled before its call has returned, so it leaves nothing
 * behind. A thread that ends in the function of an update, by pthread_exit or by a C++ exception, aborts the program with a message. */
#define _GNU_SOURCE
#include "../need.h"
#include <freeze_queue_pool.h>
#include <pthread.h>
#include <signal.h>
#include <stdio.h>
#include <stdlib.h>
#include <string.h>
#include <sys/wait.h>
#include <time.h>
#include <unistd.h>

static freeze_queue freezer;
static freeze_queue_waits waits;
static freeze_queue_tag tag, other;
static const freeze_queue_limits limits = {.hardware = 64, .max = 8, .chunk = 0, .physical = 1};
static freeze_queue_answer answered;
static int is_inside;

static void pauses(void)
{
    const struct timespec moment = {0, 20 * 1000 * 1000};
    nanosleep(&moment, NULL);
}

static uint32_t waits_inside(freeze_queue_limits *now, void *nothing)
{
    (void)now;
    __atomic_store_n(&is_inside, 1, __ATOMIC_SEQ_CST);
    while (__atomic_load_n(&is_inside, __ATOMIC_SEQ_CST) == 1)
        pauses(); /* where a thread may be cancelled, elsewhere */
    return nothing == NULL ? FREEZE_QUEUE_OK : 77;
}

static void *freezes(void *nothing)
{
    answered = freeze_queue_waits_freeze(&waits, NULL);
    if (answered == FREEZE_QUEUE_OK)
        need(freeze_queue_waits_thaw(&waits) == FREEZE_QUEUE_LIVE_AGAIN, "not thawed");
    pthread_testcancel();
    return nothing;
}
static void *changes(void *nothing)
{
    answered = freeze_queue_waits_change(&waits, &limits, NULL);
    pthread_testcancel();
    return nothing;
}
static void *enters(void *nothing)
{
    answered = freeze_queue_waits_enter(&waits, &other, 0, NULL);
    need(freeze_queue_waits_leave(&waits, &other, 0) == FREEZE_QUEUE_OK, "not left");
    pthread_testcancel();
    return nothing;
}
static void *updates(void *nothing)
{
    answered = freeze_queue_waits_update(&waits, waits_inside, NULL, NULL);
    pthread_testcancel();
    return nothing;
}

/* The thread is cancelled while it waits, is let go, and has the answer of its call. */
static void is_cancelled(void *run(void *), void let_go(void))
{
    pthread_t thread;
    void *ended = NULL;
    uint32_t depth = 1;
    answered = FREEZE_QUEUE_ERR_CLOSED;
    need(pthread_create(&thread, NULL, run, NULL) == 0, "no thread");
    pauses();
    pthread_cancel(thread);
    pauses();
    let_go();
    pthread_join(thread, &ended);
    need(ended == PTHREAD_CANCELED && answered == FREEZE_QUEUE_OK, "it isn't cancelled after its call");
    need(freeze_queue_waits_depth(&waits, &depth) == FREEZE_QUEUE_OK && depth == 0, "it stays frozen");
    need(freeze_queue_waits_change(&waits, &limits, NULL) == FREEZE_QUEUE_OK, "its turn stays taken");
}

static void leaves(void) { need(freeze_queue_waits_leave(&waits, &tag, 0) == FREEZE_QUEUE_OK, "not left"); }
static void thaws(void) { need(freeze_queue_waits_thaw(&waits) == FREEZE_QUEUE_LIVE_AGAIN, "not thawed"); }
static void goes_on(void) { __atomic_store_n(&is_inside, 2, __ATOMIC_SEQ_CST); }

static uint32_t ends_its_thread(freeze_queue_limits *now, void *nothing)
{
    (void)now;
    pthread_exit(nothing);
}

static void *updates_and_ends(void *nothing)
{
    need(freeze_queue_waits_update(&waits, ends_its_thread, NULL, NULL) == FREEZE_QUEUE_OK, "it goes on");
    return nothing;
}

/* In a process of its own, whose last words are read. */
static void aborts(void)
{
    int ends[2], status = 0;
    char said[128] = "";
    pthread_t thread;
    need(pipe(ends) == 0, "no pipe");
    const pid_t child = fork();
    if (child == 0) {
        dup2(ends[1], 2);
        if (pthread_create(&thread, NULL, updates_and_ends, NULL) == 0)
            pthread_join(thread, NULL);
        _exit(0);
    }
    close(ends[1]);
    need(read(ends[0], said, sizeof said - 1) > 0 && strstr(said, "the function of an update didn't return") != NULL, "no sentence");
    need(waitpid(child, &status, 0) == child && WIFSIGNALED(status) && WTERMSIG(status) == SIGABRT, "it doesn't abort");
}

int main(void)
{
    alarm(60);
    if (freeze_queue_new(&freezer, &limits, 1, 2) || freeze_queue_waits_init(&waits, &freezer))
        return 1;
    need(freeze_queue_waits_next_tag(&waits, &tag) == FREEZE_QUEUE_OK && freeze_queue_waits_next_tag(&waits, &other) == FREEZE_QUEUE_OK, "no tag");
    need(freeze_queue_waits_enter(&waits, &tag, 0, NULL) == FREEZE_QUEUE_OK, "not entered");
    is_cancelled(freezes, leaves);
    need(freeze_queue_waits_enter(&waits, &tag, 0, NULL) == FREEZE_QUEUE_OK, "not entered");
    is_cancelled(changes, leaves);
    need(freeze_queue_waits_freeze(&waits, NULL) == FREEZE_QUEUE_OK, "not frozen");
    is_cancelled(enters, thaws);
    is_cancelled(updates, goes_on);
    aborts();
    return 0;
}
