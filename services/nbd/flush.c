/* A thread that flushes the backend for a quiesce, so that the control can serve others meanwhile. */
#include "service.h"
#include <errno.h>
#include <sys/eventfd.h>
#include <unistd.h>

static background flusher = NO_BACKGROUND;

/* The flusher's lock guards the tickets and the errno. */
static struct {
    int event;            /* readable once a flush is done */
    uint64_t asked, done; /* tickets: the last one given, and the last one that is done */
    uint64_t failed_at;   /* the last ticket of the last flush that failed, */
    int failed;           /* and its errno */
} flushes = {.event = -1};

/* Sleeps until a flush is asked for, and returns the last ticket; 0: the thread has to end. Called under the lock. */
static uint64_t next_ticket(void)
{
    while (!flusher.is_over && flushes.asked == flushes.done)
        pthread_cond_wait(&flusher.wakes, &flusher.lock);
    return flusher.is_over ? 0 : flushes.asked;
}

/* Each flush serves all tickets that were given before it began. */
static void *flush_when_asked(void *nothing)
{
    uint64_t ticket;
    pthread_mutex_lock(&flusher.lock);
    while ((ticket = next_ticket()) != 0) {
        pthread_mutex_unlock(&flusher.lock);
        int failed = blkq.flush();
        pthread_mutex_lock(&flusher.lock);
        flushes.done = ticket;
        if (failed != 0) {
            flushes.failed_at = ticket;
            flushes.failed = failed;
        }
        eventfd_write(flushes.event, 1);
    }
    pthread_mutex_unlock(&flusher.lock);
    return nothing;
}

int start_flushing(void)
{
    flushes.event = eventfd(0, EFD_CLOEXEC | EFD_NONBLOCK);
    return flushes.event < 0 ? errno : begin_background(&flusher, flush_when_asked);
}

void end_flushing(void)
{
    end_background(&flusher);
    if (flushes.event >= 0)
        close(flushes.event);
    flushes.event = -1;
}

int flush_event(void) { return flushes.event; }

uint64_t ask_flush(void)
{
    pthread_mutex_lock(&flusher.lock);
    uint64_t ticket = ++flushes.asked;
    pthread_cond_signal(&flusher.wakes);
    pthread_mutex_unlock(&flusher.lock);
    return ticket;
}

bool is_flushed(uint64_t ticket, int *failed)
{
    pthread_mutex_lock(&flusher.lock);
    bool is_done = flushes.done >= ticket;
    *failed = flushes.failed_at >= ticket ? flushes.failed : 0;
    pthread_mutex_unlock(&flusher.lock);
    return is_done;
}
