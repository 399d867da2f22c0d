/* The shims on one thread. */
#include "alone.h"
#include <inttypes.h>
#include <stdio.h>
#include <stdlib.h>

unsigned shim_cpus, alone_cpu;
struct alone_sleeper *alone_now;

static struct rcu_head *pending;
static unsigned sections;
static const char *warning;

unsigned shim_cpu(void) { return alone_cpu; }
void *shim_alloc(size_t size) { return calloc(1, size); }
void shim_free(void *at) { free(at); }
long shim_load(const long *at) { return *at; }
void shim_store(long *at, long n) { *at = n; }
void shim_add(long *at, long n) { *at += n; }
long shim_add_return(long *at, long n) { return *at += n; }
bool shim_add_and_test(long *at, long n) { return !(*at += n); }
bool shim_add_unless(long *at, long n, long unless) { return *at != unless && (*at += n, true); }
void shim_cpu_add(unsigned long *at, unsigned long n) { *at += n; }
bool shim_is_held(const spinlock_t *lock) { return lock->holder; }
void shim_rcu_lock(void) { sections++; }
bool shim_rcu_held(void) { return sections; }

bool shim_warn(bool is_so, const char *what)
{
    if (is_so && !warning)
        warning = what;
    return is_so;
}

void alone_tells(const char *comma, const char *last_comma, uint64_t releases)
{
    if (releases)
        printf("%srelease", comma);
    if (releases > 1)
        printf(" %" PRIu64 " times", releases);
    if (warning)
        printf("%sthe kernel warns: %s", last_comma, warning);
    warning = NULL;
}

void shim_lock(spinlock_t *lock)
{
    shim_warn(lock->holder, "a lock is taken twice: the kernel hangs here");
    lock->holder = 1;
}

void shim_unlock(spinlock_t *lock)
{
    shim_warn(!lock->holder, "a lock is given back twice");
    lock->holder = 0;
}

void shim_rcu_unlock(void)
{
    shim_warn(!sections, "a section of RCU ends that didn't begin");
    sections -= sections > 0;
}

void shim_call_rcu(struct rcu_head *head, void (*then)(struct rcu_head *))
{
    head->then = then;
    head->next = NULL;
    struct rcu_head **last = &pending;
    while (*last)
        last = &(*last)->next;
    *last = head;
}

bool alone_is_pending(void) { return pending; }

void alone_grace(void)
{
    shim_warn(sections, "a grace period ends in a section of RCU");
    while (pending) {
        struct rcu_head *head = pending;
        pending = head->next;
        head->then(head);
    }
}

void shim_prepare(wait_queue_head_t *queue)
{
    alone_now->on = queue;
    alone_now->woken = false;
}

void shim_finish(wait_queue_head_t *queue)
{
    (void)queue;
    alone_now->on = NULL;
}

void shim_sleep(wait_queue_head_t *queue)
{
    (void)queue;
    shim_warn(sections, "a sleep in a section of RCU");
    if (!alone_now->woken)
        alone_grace();
    while (!alone_now->woken)
        alone_block();
}

void shim_wake_all(wait_queue_head_t *queue)
{
    struct alone_sleeper *it;
    for (unsigned at = 0; (it = alone_sleeper(at)); at++)
        it->woken |= it->on == queue;
}
