/* Shared by the explorer of all orders of a race on the kernel's own code (orders.c), its actors (orders_actors.c) and its shims
 * (orders_shims.c). */
#ifndef ORDERS_H
#define ORDERS_H
#ifdef __clang__
#error "all orders need gcc: clang leaves out calls before accesses"
#endif
#include "../shims/shim.h"
#include <setjmp.h>
#include <stdint.h>

enum { PASSES = 4, GRACES = 6, ACTORS = PASSES + 1 + GRACES, CALLS = 6, HEAP = 512, STACK = 1 << 14 };
enum { CONTROL = PASSES, FIRST_GRACE = PASSES + 1 };

/* How an actor may go on: at once; when a lock is free; when it was woken; not at all. */
enum status { READY, LOCKED, ASLEEP, DONE };

/* The answer of a call. */
enum answer { NEVER, GIVEN, REFUSED, NOT_LAST, LAST, OK, PASSED_OVER, YES, NO, ALREADY_DEAD, NOT_DEAD, NOT_ZERO };

/* An actor. How it goes on depends on this, its stack, its registers, and the memory that all share. */
struct actor {
    spinlock_t *lock;
    wait_queue_head_t *on;
    struct rcu_head *head;               /* of a grace period: its callback */
    uint32_t waits_for;                  /* of a grace period: the actors whose sections it found */
    uint8_t status, now, nest, is_begun; /* sections of RCU, and whether the outermost has taken its first step */
    uint8_t is_woken, is_told, of_call, pad;
    int32_t held;
    uint8_t answers[CALLS];
};

/* All that changes while a race runs, but stacks: copied to come back to a moment. */
struct world {
    char heap[HEAP];
    size_t used;
    struct actor actors[ACTORS];
    uint32_t releases, kills;
};
extern struct world world;
extern int now; /* the actor that runs, or -1 */

/* Where an actor goes on, and the part of its stack that is in use. */
struct place { jmp_buf at; char *low; };
extern struct place places[ACTORS];
extern char stacks[ACTORS][STACK];
/* The static locks and wait queues of the kernel's code, all zero at first. */
extern char __start_shim_shared[], __stop_shim_shared[];

struct call { char what[12]; unsigned slot, n; };
struct race {
    unsigned slots, passes, counts[PASSES + 1];
    char start[12];
    struct call calls[PASSES + 1][CALLS];
};
extern struct race race;

/* Of orders_shims.c: lets another actor go first; whether two actors met at a word for the first time. */
void step(void);
extern bool is_new_place;
extern const char *warned;

/* Of orders_actors.c: begins the actors, each up to its first step, and prints the outcome that they have come to. */
void begin_actors(void);
void print_outcome(void);
size_t outcome_key(uint8_t *key);

/* Of orders.c: back from the actor to the explorer. */
void leave_actor(void);
#endif
