/* The log of failed requests, with a limit on the number of lines in a period. */
#define NBDKIT_API_VERSION 2
#include "service.h"
#include <errno.h>
#include <inttypes.h>
#include <nbdkit-plugin.h>
#include <string.h>

enum { LINES = 10 };
#define WHILE (UINT64_C(10) * 1000 * 1000 * 1000) /* in nanoseconds */

static pthread_mutex_t lock = PTHREAD_MUTEX_INITIALIZER;
static struct {
    uint64_t since, lines, left_out;
} log_of; /* the period: when it began, the lines that were written, and those that weren't */

/* Whether a line may be written now; left_out gets the number of lines that the last period left out. */
static bool may_write(uint64_t *left_out)
{
    uint64_t at = now();
    *left_out = 0;
    pthread_mutex_lock(&lock);
    if (log_of.since == 0 || at - log_of.since >= WHILE) {
        *left_out = log_of.left_out;
        log_of.since = at;
        log_of.lines = log_of.left_out = 0;
    }
    bool may = log_of.lines < LINES;
    if (may)
        log_of.lines++;
    else
        log_of.left_out++;
    pthread_mutex_unlock(&lock);
    return may;
}

static const char *text_of(int failed, bool has_export)
{
    if (failed != ESHUTDOWN)
        return strerror(failed);
    return has_export ? "the freeze or the snapshot of its export has ended" : "the server ends, or the client has gone";
}

void log_failure(const request *wanted, int failed, bool has_export)
{
    uint64_t left_out;
    if (!may_write(&left_out))
        return;
    if (left_out > 0)
        nbdkit_error("blkq: %" PRIu64 " requests that failed were not logged", left_out);
    nbdkit_error("blkq: %s of %" PRIu32 " bytes at %" PRIu64 ": %s (%d)", operations[wanted->operation], wanted->count, wanted->offset,
                 text_of(failed, has_export), failed);
}
