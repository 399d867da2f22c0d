/* The control's socket. One thread takes lines from every connected controller, and replies to each in order. It waits only in
 * poll, so a drain, a flush or a controller that hangs delays nobody else. */
#define NBDKIT_API_VERSION 2
#include "service.h"
#include <errno.h>
#include <fcntl.h>
#include <libgen.h>
#include <nbdkit-plugin.h>
#include <poll.h>
#include <stdio.h>
#include <stdlib.h>
#include <string.h>
#include <sys/eventfd.h>
#include <sys/file.h>
#include <sys/socket.h>
#include <sys/stat.h>
#include <sys/un.h>
#include <unistd.h>

/* The places of controllers. Those after FREEZERS are reserved for lines that begin no freeze, such as `thaw all`. */
enum { FREEZERS = 64, CONTROLLERS = FREEZERS + 4, OTHERS = 4, PAUSE = 100 /* milliseconds */ };

static controller controllers[CONTROLLERS];
static int listening = -1, ending = -1;
static struct stat bound; /* the socket in its directory */
static pthread_t thread;
static bool runs;

static int refuse_control(const char *what)
{
    nbdkit_error("%s=%s: %s: %s", blkq.control_key, blkq.control, what, strerror(errno));
    return -1;
}

bool is_of_control(int at) { return at == listening; }

controller *next_controller(controller *after)
{
    controller *next = after == NULL ? controllers : after + 1;
    while (next < controllers + CONTROLLERS && next->at < 0)
        next++;
    return next < controllers + CONTROLLERS ? next : NULL;
}

/* ---- Replies ---- */

/* Adds bytes to a reply. If there is no memory for it, the controller's connection is closed. */
static void reply_with(controller *to, const char *bytes, size_t length)
{
    char *longer = to->at < 0 ? NULL : realloc(to->reply, to->length + length);
    if (longer == NULL) {
        if (to->at >= 0)
            shutdown(to->at, SHUT_RDWR);
        return;
    }
    memcpy(longer + to->length, bytes, length);
    to->reply = longer;
    to->length += length;
}

void say(controller *to, const char *text)
{
    reply_with(to, text, strlen(text));
    reply_with(to, "\n", 1);
}

void say_all(controller *to, char *text, size_t length)
{
    reply_with(to, text, length);
    free(text);
}

/* Sends as much of a reply as the controller takes now. Returns whether its connection is still there. */
static bool send_reply(controller *to)
{
    while (to->sent < to->length) {
        ssize_t sent = send(to->at, to->reply + to->sent, to->length - to->sent, MSG_NOSIGNAL | MSG_DONTWAIT);
        if (sent < 0)
            return errno == EAGAIN || errno == EINTR;
        to->sent += (size_t)sent;
    }
    free(to->reply);
    to->reply = NULL;
    to->length = to->sent = 0;
    return true;
}

/* ---- Controllers ---- */

static void let_go(controller *one)
{
    forget_controller(one);
    close(one->at);
    free(one->reply);
    *one = (controller){.at = -1};
}

/* Does the first complete line of the received bytes, and keeps the rest. Returns whether there was one. */
static bool do_next_line(controller *from)
{
    char line[LINE_MOST], *end = memchr(from->line, '\n', from->filled);
    if (end == NULL)
        return false;
    size_t length = (size_t)(end - from->line);
    memcpy(line, from->line, length);
    from->filled -= length + 1;
    memmove(from->line, end + 1, from->filled);
    if (length > 0 && line[length - 1] == '\r')
        length--;
    for (size_t i = 0; i < length; i++)
        if (line[i] == '\0')
            line[i] = '?'; /* a NUL would end the line early; no word has a '?' */
    line[length] = '\0';
    run_line(from, line);
    return true;
}

/* Goes as far as it can with the pending line, the reply, and then the next lines. Returns whether the controller stays. It
 * doesn't if it sends a line that is too long, or if it has ended and has its replies. An incomplete last line is never
 * run. */
static bool serve_controller(controller *one)
{
    do {
        if (one->stage != IDLE)
            go_on(one);
        if (!send_reply(one))
            return false;
        if (one->stage != IDLE || one->length > 0)
            return true;
    } while (do_next_line(one));
    return !one->has_ended && one->filled < LINE_MOST;
}

/* Takes the bytes that a controller sent. Returns whether it is still there. */
static bool hear(controller *one)
{
    ssize_t came = recv(one->at, one->line + one->filled, LINE_MOST - one->filled, MSG_DONTWAIT);
    if (came < 0)
        return errno == EINTR || errno == EAGAIN;
    one->filled += (size_t)came;
    one->has_ended = came == 0;
    one->heard = now();
    return true;
}

/* Lets a controller go that hung up, after running its complete lines, up to the first that would wait. */
static void attend(controller *one, short events)
{
    bool stays = true;
    if (events & POLLIN)
        stays = hear(one);
    stays = stays && serve_controller(one);
    if (!stays || (events & (POLLHUP | POLLERR | POLLNVAL)))
        let_go(one);
}

/* The events to poll for: input, unless a line is pending; room for a reply. poll always reports a hang-up. */
static short events_of(const controller *one)
{
    if (one->length > 0)
        return POLLOUT;
    return one->stage == IDLE && !one->has_ended ? POLLIN : 0;
}

bool may_freeze(const controller *from) { return from < controllers + FREEZERS; }

/* A free place among these. If all are taken, the controller that is idle longest and holds no freeze is disconnected. */
static controller *find_place(controller *first, const controller *end)
{
    controller *longest = NULL;
    for (controller *one = first; one < end; one++) {
        if (one->at < 0)
            return one;
        if (!holds_any(one) && (longest == NULL || one->heard < longest->heard))
            longest = one;
    }
    if (longest != NULL)
        let_go(longest);
    return longest;
}

static void admit(void)
{
    int at = accept4(listening, NULL, NULL, SOCK_CLOEXEC);
    if (at < 0) {
        if (errno != EINTR && errno != EAGAIN && errno != ECONNABORTED)
            poll(NULL, 0, PAUSE); /* out of descriptors or memory */
        return;
    }
    controller *place = find_place(controllers, controllers + FREEZERS);
    if (place == NULL)
        place = find_place(controllers + FREEZERS, controllers + CONTROLLERS); /* of these none holds a freeze */
    struct ucred peer = {.pid = 0};
    socklen_t length = sizeof peer;
    (void)getsockopt(at, SOL_SOCKET, SO_PEERCRED, &peer, &length);
    *place = (controller){.at = at, .heard = now(), .who = {.pid = peer.pid, .uid = peer.uid}};
}

/* ---- The thread ---- */

/* Whether any controller is in a stage. */
static bool any_is(stage stage)
{
    for (const controller *one = controllers; one < controllers + CONTROLLERS; one++)
        if (one->at >= 0 && one->stage == stage)
            return true;
    return false;
}

static void *serve_control(void *nothing)
{
    for (;;) {
        int within = end_late(), drained = any_is(DRAINING) ? freeze_queue_waits_drained_event(&blkq.waits) : -1;
        struct pollfd all[OTHERS + CONTROLLERS] = {
            {ending, POLLIN, 0}, {listening, POLLIN, 0}, {drained, POLLIN, 0}, {flush_event(), POLLIN, 0}};
        for (int i = 0; i < CONTROLLERS; i++)
            all[OTHERS + i] = (struct pollfd){controllers[i].at, events_of(&controllers[i]), 0};
        if (poll(all, OTHERS + CONTROLLERS, within) < 0 && errno != EINTR)
            return nothing;
        if (all[0].revents != 0)
            return nothing;
        eventfd_t flushed;
        if (all[3].revents != 0)
            (void)eventfd_read(flush_event(), &flushed);
        for (int i = 0; i < CONTROLLERS; i++)
            if (controllers[i].at >= 0)
                attend(&controllers[i], all[OTHERS + i].revents);
        if (all[1].revents != 0)
            admit();
    }
}

/* ---- Start and end ---- */

/* Whether a server answers at an address. */
static bool is_answered(const struct sockaddr_un *address)
{
    int at = socket(AF_UNIX, SOCK_STREAM | SOCK_CLOEXEC | SOCK_NONBLOCK, 0);
    bool is_refused = connect(at, (const struct sockaddr *)address, sizeof *address) != 0 && errno == ECONNREFUSED;
    if (at >= 0)
        close(at);
    return !is_refused;
}

/* Locks the folder of the control: no other server takes the socket for a dead one's before it listens. Returns the descriptor, or -1: the folder isn't
 * there, or can't be locked, as on some network's file systems. */
static int lock_folder(void)
{
    char folder[sizeof((struct sockaddr_un *)0)->sun_path];
    strcpy(folder, blkq.control);
    int at = open(dirname(folder), O_RDONLY | O_DIRECTORY | O_CLOEXEC);
    if (at >= 0)
        (void)flock(at, LOCK_EX);
    return at;
}

/* Binds the socket; nobody can connect before it listens. Removes a socket that a dead server left. */
static int bind_at(int at, const struct sockaddr_un *address)
{
    struct stat found;
    int failed = bind(at, (const struct sockaddr *)address, sizeof *address);
    bool is_taken = failed != 0 && errno == EADDRINUSE;
    if (is_taken && lstat(blkq.control, &found) == 0 && S_ISSOCK(found.st_mode) && !is_answered(address) &&
        unlink(blkq.control) == 0)
        failed = bind(at, (const struct sockaddr *)address, sizeof *address);
    else if (is_taken)
        errno = EADDRINUSE;
    return failed;
}

int take_control(void)
{
    struct sockaddr_un address = {.sun_family = AF_UNSPEC};
    socklen_t length = sizeof address - 1, size = sizeof(int);
    int listens = 0, at = blkq.control_at;
    if (blkq.control_at_key == NULL)
        return 0;
    blkq.control_key = blkq.control_at_key;
    if (getsockopt(at, SOL_SOCKET, SO_ACCEPTCONN, &listens, &size) != 0 || !listens ||
        getsockname(at, (struct sockaddr *)&address, &length) != 0 || address.sun_family != AF_UNIX)
        return refuse(blkq.control_key, "has to be a Unix socket that listens");
    free(blkq.control);
    blkq.control = strdup(address.sun_path);
    return fcntl(at, F_SETFD, FD_CLOEXEC) == 0 && fcntl(at, F_SETFL, O_NONBLOCK) == 0 && blkq.control ? 0 : refuse(blkq.control_key, strerror(errno));
}

/* Lets the owner connect, and the others that the mode allows. A controller can stop every client, so the default is the owner alone. */
static int open_to_others(void)
{
    if (blkq.control_group != (gid_t)-1 && chown(blkq.control, (uid_t)-1, blkq.control_group) != 0)
        return refuse_control("chown");
    return chmod(blkq.control, blkq.control_mode) == 0 ? 0 : refuse_control("chmod");
}

/* Makes the socket, and lets controllers connect. -1: refused, and the reason is logged. */
static int listen_at(const struct sockaddr_un *address)
{
    int at = socket(AF_UNIX, SOCK_STREAM | SOCK_CLOEXEC | SOCK_NONBLOCK, 0);
    if (at < 0)
        return refuse_control("socket");
    if (bind_at(at, address) != 0) {
        refuse_control("bind");
        close(at);
        return -1;
    }
    listening = at;
    if (open_to_others() != 0)
        return -1;
    if (stat(blkq.control, &bound) != 0)
        return refuse_control("stat");
    return listen(at, CONTROLLERS) == 0 ? 0 : refuse_control("listen");
}

int bind_control(void)
{
    struct sockaddr_un address = {.sun_family = AF_UNIX};
    for (controller *one = controllers; one < controllers + CONTROLLERS; one++)
        one->at = -1;
    listening = blkq.control_at;
    if (blkq.control == NULL || listening >= 0)
        return 0;
    if (strlen(blkq.control) >= sizeof address.sun_path) {
        errno = ENAMETOOLONG;
        return refuse_control("path");
    }
    strcpy(address.sun_path, blkq.control);
    int folder = lock_folder(), failed = listen_at(&address);
    if (folder >= 0)
        close(folder);
    return failed;
}

int start_control(void)
{
    if (blkq.control == NULL)
        return 0;
    ending = eventfd(0, EFD_CLOEXEC);
    if (ending < 0)
        return refuse_control("eventfd");
    errno = pthread_create(&thread, NULL, serve_control, NULL);
    runs = errno == 0;
    return runs ? 0 : refuse_control("thread");
}

/* Removes the socket, unless another socket has its path now. */
static void unbind_control(void)
{
    struct stat found;
    close(listening);
    if (lstat(blkq.control, &found) == 0 && found.st_dev == bound.st_dev && found.st_ino == bound.st_ino)
        unlink(blkq.control);
    listening = -1;
}

void end_control(void)
{
    if (runs) {
        eventfd_write(ending, 1);
        pthread_join(thread, NULL);
        runs = false;
    }
    for (controller *one = next_controller(NULL); one != NULL; one = next_controller(one))
        let_go(one);
    if (ending >= 0)
        close(ending);
    ending = -1;
    if (listening >= 0)
        unbind_control();
}
