/* Included by tests: whether an event is readable, now or within so many milliseconds. One that is closed isn't. */
#ifndef READABLE_H
#define READABLE_H
#include <poll.h>
#include <stdbool.h>

static inline bool is_readable_within(int event, int milliseconds)
{
    struct pollfd polled = {.fd = event, .events = POLLIN};
    return poll(&polled, 1, milliseconds) == 1 && (polled.revents & POLLIN) != 0;
}
static inline bool is_readable(int event) { return is_readable_within(event, 0); }
#endif
