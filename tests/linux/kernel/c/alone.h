/* The shims on one thread. A callback of RCU waits until the driver ends the grace period. */
#ifndef ALONE_H
#define ALONE_H
#include "../shims/shim.h"
#include <stdint.h>

extern unsigned alone_cpu; /* the processor that runs the next call */

/* A caller that may sleep; the driver switches between them. */
struct alone_sleeper { wait_queue_head_t *on; bool woken; };
extern struct alone_sleeper *alone_now;

bool alone_is_pending(void); /* whether a callback waits for a grace period */
void alone_grace(void);      /* ends the grace period: its callbacks run */

/* Prints how often a step ran the release, and what the kernel warned of since the last step, each behind its comma. */
void alone_tells(const char *comma, const char *last_comma, uint64_t releases);

/* Of the driver: its sleepers, by number; and the place where a call waits that can't go on, until alone_now is woken. */
struct alone_sleeper *alone_sleeper(unsigned at);
void alone_block(void);
#endif
