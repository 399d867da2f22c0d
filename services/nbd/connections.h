/* The connections of the filter's clients, and the calls that they make of the backend. */
#ifndef CONNECTIONS_H
#define CONNECTIONS_H

#define NBDKIT_API_VERSION 2
#include "service.h"
#include <nbdkit-filter.h>

/* A client's connection, as long as the backend is open for it. */
typedef struct connection {
    nbdkit_next *next;
    uint64_t export;  /* the number of the export through which it reads, bypassing the queue; 0: none */
    char *name;       /* of an export's connection: its name for the backend */
    bool is_of_snapshot; /* its export is a snapshot's, */
    struct snapshot *keeps; /* which it keeps, unless NULL */
    uint32_t minimum; /* bytes of the backend's smallest block; 1 if the backend names none */
    int fua;          /* an NBDKIT_FUA_.. */
    bool flushes, is_listed;
    pthread_mutex_t flushing; /* held by the flush of a quiesce, or of the connection's end */
    atomic_bool is_written;   /* since the last flush began */
    struct connection *before, *after;
} connection;

extern bool is_serial; /* the backend does one request at a time */

/* Adds a connection to those that a quiesce flushes; removes it, once a flush of it that is under way is done. */
void list_connection(connection *one);
void unlist_connection(connection *one);

extern pthread_mutex_t one_at_a_time;

/* Go around each call of the backend: a serial backend has one thread at a time, the flusher included. */
static inline void begin_call(void)
{
    if (is_serial)
        pthread_mutex_lock(&one_at_a_time);
}

static inline void end_call(void)
{
    if (is_serial)
        pthread_mutex_unlock(&one_at_a_time);
}

/* Flushes the writes of a connection, if there were any: 0, or an errno. If the connection is closing, the next quiesce gets the
 * errno too. Waits for a flush that another thread has begun. */
int flush_connection(connection *one, bool leaves);

/* Flushes the writes of all connections, for a quiesce. Closed connections were flushed when they closed. */
int flush_backend(void);

#endif
