/* Records the limits that cut each request, a line for each, in the file that WATCHED names in the environment:
 *
 *     START COUNT PIECES MAX CHUNK PHYSICAL MAX CHUNK PHYSICAL
 *
 * The pieces are joined by +. The limits are those in force at the first piece, and read again after the last. A request of several pieces
 * sleeps after its first piece, so that a change of limits comes in between unless something prevents it, even on one processor. */
#include <fcntl.h>
#include <inttypes.h>
#include <stdio.h>
#include <stdlib.h>
#include <string.h>
#include <time.h>
#include <unistd.h>

/* Of the request that a thread does: the limits at its first piece, and its line so far. */
static _Thread_local struct {
    freeze_queue_limits first;
    FILE *line;
    char *text;
    size_t length;
} watched;

static inline void need(bool holds)
{
    if (!holds)
        abort();
}

/* Ends the line, and writes it in one go, since other threads write theirs. */
static inline void write_down(const freeze_queue_limits *last)
{
    const freeze_queue_limits *first = &watched.first;
    fprintf(watched.line, " %u %u %u %u %u %u\n", first->max, first->chunk, first->physical, last->max, last->chunk,
            last->physical);
    need(fclose(watched.line) == 0);
    int file = open(getenv("WATCHED"), O_WRONLY | O_APPEND | O_CREAT | O_CLOEXEC, 0600);
    need(write(file, watched.text, watched.length) == (ssize_t)watched.length);
    close(file);
    free(watched.text);
}

static inline void watch_piece(freeze_queue_tag *tag, const request *wanted, const freeze_queue_limits *limits,
                               uint64_t from, uint64_t to)
{
    const unsigned piece = (unsigned)((to - from) / SECTOR);
    if (from == wanted->offset) {
        watched.first = *limits;
        watched.line = open_memstream(&watched.text, &watched.length);
        need(watched.line != NULL);
        fprintf(watched.line, "%" PRIu64 " %u %u", from / SECTOR, wanted->count / SECTOR, piece);
    } else {
        fprintf(watched.line, "+%u", piece);
    }
    if (to < wanted->offset + wanted->count) {
        if (from == wanted->offset)
            nanosleep(&(struct timespec){.tv_nsec = 200 * 1000}, NULL);
        return;
    }
    freeze_queue_limits last = {0};
    need(freeze_queue_limits_of(tag, &last) == FREEZE_QUEUE_OK);
    write_down(&last);
}
