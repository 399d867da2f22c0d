/* The calls that the shims make of a runtime: alone.c (one thread), orders_shims.c (all orders) or threads.c. Each runtime gives
 * them the meaning that the kernel's documentation has. */
#ifndef SHIM_H
#define SHIM_H
#include <stdbool.h>
#include <stddef.h>

#ifndef SHIM_MOST_CPUS
#define SHIM_MOST_CPUS 64
#endif
enum { SHIM_CPUS = SHIM_MOST_CPUS, SHIM_LINE = 64 };
/* Static locks and wait queues are in a section of their own, for orders.c to copy. */
#define SHIM_SHARED __attribute__((section("shim_shared")))

struct rcu_head { struct rcu_head *next; void (*then)(struct rcu_head *); };
typedef struct { int holder; } spinlock_t;
typedef struct { unsigned long wakes; } wait_queue_head_t;

/* How many processors there are, and the one that runs the caller. */
extern unsigned shim_cpus;
unsigned shim_cpu(void);

void *shim_alloc(size_t size); /* zeroed; NULL if there is no memory */
void shim_free(void *at);

/* Atomic operations: one step each, with a full barrier. */
long shim_load(const long *at);
void shim_store(long *at, long n);
void shim_add(long *at, long n);
long shim_add_return(long *at, long n);              /* the sum */
bool shim_add_and_test(long *at, long n);            /* whether the sum is 0 */
bool shim_add_unless(long *at, long n, long unless); /* whether it added */
void shim_cpu_add(unsigned long *at, unsigned long n); /* on the caller's processor; one step beside its interrupts */

void shim_lock(spinlock_t *lock);
void shim_unlock(spinlock_t *lock);
bool shim_is_held(const spinlock_t *lock);

/* A callback runs once each section has ended that was there when it was given. */
void shim_rcu_lock(void);
void shim_rcu_unlock(void);
bool shim_rcu_held(void);
void shim_call_rcu(struct rcu_head *head, void (*then)(struct rcu_head *));

/* A caller is on the queue from shim_prepare to shim_finish; shim_sleep returns after a wake since shim_prepare. */
void shim_prepare(wait_queue_head_t *queue);
void shim_sleep(wait_queue_head_t *queue);
void shim_finish(wait_queue_head_t *queue);
void shim_wake_all(wait_queue_head_t *queue);

/* The kernel warns: always false where it didn't. */
bool shim_warn(bool is_so, const char *what);
#endif
