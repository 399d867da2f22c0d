/* The connections of the filter's clients, which a quiesce flushes one after another. */
#include "connections.h"
#include <errno.h>

bool is_serial;
pthread_mutex_t one_at_a_time = PTHREAD_MUTEX_INITIALIZER;
static pthread_mutex_t lock = PTHREAD_MUTEX_INITIALIZER;
static connection *connections; /* under the lock */
static connection *in_flush;    /* under the lock: the connection that a quiesce flushes now, which stays listed */
static pthread_cond_t flush_ended = PTHREAD_COND_INITIALIZER;
static atomic_int lost;         /* the errno of a flush that failed while its connection closed */

/* ---- Connections, for a quiesce ---- */

void list_connection(connection *one)
{
    pthread_mutex_lock(&lock);
    one->after = connections;
    if (connections != NULL)
        connections->before = one;
    connections = one;
    one->is_listed = true;
    pthread_mutex_unlock(&lock);
}

void unlist_connection(connection *one)
{
    pthread_mutex_lock(&lock);
    while (in_flush == one)
        pthread_cond_wait(&flush_ended, &lock);
    if (one->is_listed && one->before != NULL)
        one->before->after = one->after;
    else if (one->is_listed)
        connections = one->after;
    if (one->is_listed && one->after != NULL)
        one->after->before = one->before;
    one->is_listed = false;
    pthread_mutex_unlock(&lock);
}

/* ---- Flushes ---- */

/* Flushes the backend through a connection: 0, or an errno. */
static int flush_by(connection *one)
{
    int failed = 0;
    begin_call();
    bool done = one->next->flush(one->next, 0, &failed) == 0;
    end_call();
    if (!done)
        atomic_store(&blkq.flush_lost, true);
    return done ? 0 : failed != 0 ? failed : EIO;
}

int flush_connection(connection *one, bool leaves)
{
    int failed = 0;
    pthread_mutex_lock(&one->flushing);
    if (one->flushes && atomic_exchange(&one->is_written, false))
        failed = flush_by(one);
    if (failed != 0 && leaves)
        atomic_store(&lost, failed);
    else if (failed != 0)
        atomic_store(&one->is_written, true);
    pthread_mutex_unlock(&one->flushing);
    return failed;
}

/* Flushes a listed connection, under the lock, which it releases meanwhile: other clients come and go, however long the flush takes. */
static int flush_listed(connection *one)
{
    in_flush = one;
    pthread_mutex_unlock(&lock);
    int failed = flush_connection(one, false);
    pthread_mutex_lock(&lock);
    in_flush = NULL;
    pthread_cond_broadcast(&flush_ended);
    return failed;
}

/* A connection that comes meanwhile is listed before all others, and isn't flushed: it has written nothing under the freeze. */
int flush_backend(void)
{
    int failed = 0;
    pthread_mutex_lock(&lock);
    for (connection *one = connections; one != NULL; one = one->after) {
        int flushed = flush_listed(one);
        if (flushed != 0)
            failed = flushed;
    }
    pthread_mutex_unlock(&lock);
    int left = atomic_exchange(&lost, 0); /* also of connections that closed meanwhile */
    return failed != 0 ? failed : left;
}
