/* A record of what the control did, in nbdkit's debug log and, with blkq-audit, in the journal. */
#define NBDKIT_API_VERSION 2
#include "service.h"
#include <errno.h>
#include <nbdkit-plugin.h>
#include <stdarg.h>
#include <stdio.h>
#include <string.h>
#include <sys/socket.h>
#include <sys/un.h>
#include <unistd.h>

enum { NOTE_MOST = 256 };

static atomic_uint_fast64_t lost;

uint64_t lost_notes(void) { return atomic_load(&lost); }

/* Connects to the journal's socket. Returns the descriptor, or -1. */
static int connect_journal(void)
{
    struct sockaddr_un journal = {.sun_family = AF_UNIX};
    int at = socket(AF_UNIX, SOCK_DGRAM | SOCK_CLOEXEC | SOCK_NONBLOCK, 0);
    strncpy(journal.sun_path, blkq.audit, sizeof journal.sun_path - 1);
    if (at >= 0 && connect(at, (const struct sockaddr *)&journal, sizeof journal) != 0) {
        int refused = errno;
        close(at);
        errno = refused;
        return -1;
    }
    return at;
}

/* Sends a note by the journal's own protocol: a datagram with a line for each field. If the journal doesn't take it at once, it is lost. */
static void send_note(const char *text)
{
    char fields[2 * NOTE_MOST + 128];
    int at = connect_journal();
    int length = snprintf(fields, sizeof fields, "MESSAGE=blkq %s: %s\nPRIORITY=5\nSYSLOG_IDENTIFIER=blkq\nBLKQ_DISK=%s\n", disk_name(), text,
                          disk_name());
    bool is_sent = at >= 0 && length > 0 && (size_t)length < sizeof fields && send(at, fields, (size_t)length, MSG_NOSIGNAL) == length;
    atomic_fetch_add(&lost, !is_sent);
    if (at >= 0)
        close(at);
}

int find_journal(void)
{
    int at = blkq.audit != NULL ? connect_journal() : -1;
    if (blkq.audit != NULL && at < 0)
        return refuse(blkq.audit, strerror(errno));
    if (at >= 0)
        close(at);
    return 0;
}

void note(const char *format, ...)
{
    char text[NOTE_MOST];
    va_list values;
    va_start(values, format);
    vsnprintf(text, sizeof text, format, values);
    va_end(values);
    nbdkit_debug("%s", text);
    if (blkq.audit != NULL)
        send_note(text);
}
