/* The shims for all orders. Each access to shared memory is a step, before which another actor may go. The compiler calls a
 * function at each access of the kernel's code (-fsanitize=thread); here that function is this file's, not the sanitizer's. */
#include "orders.h"
#include <string.h>

/* Set to 1, accesses that commute with all that others do are steps too: more moments, and the same outcomes. */
#ifndef EACH_ACCESS_IS_A_STEP
#define EACH_ACCESS_IS_A_STEP 0
#endif

unsigned shim_cpus;
bool is_new_place;
const char *warned;

/* Which actors have read each word that all share, and which have written it, in any race so far. */
static uint32_t readers[HEAP / 8 + 32], writers[HEAP / 8 + 32];

/* The number of a word that all share, or -1. */
static long place_of(const void *at)
{
    const char *it = at;
    if (it >= world.heap && it < world.heap + HEAP)
        return (it - world.heap) / 8;
    if (it >= __start_shim_shared && it < __stop_shim_shared)
        return HEAP / 8 + (it - __start_shim_shared) / 8;
    return -1;
}

void step(void)
{
    if (now < 0)
        return;
    leave_actor();
    world.actors[now].is_begun = world.actors[now].nest > 0;
}

/* Whether an access is a step: another actor writes the word, or uses it where this one writes it. Else it commutes with all
 * that others do. A first conflict at a word makes earlier accesses there steps too: the race is begun again. */
static bool is_step(const void *at, bool is_write)
{
    long place = now < 0 ? -1 : place_of(at);
    if (place < 0)
        return false;
    uint32_t me = 1u << now, *mine = is_write ? &writers[place] : &readers[place];
    uint32_t others = (is_write ? readers[place] | writers[place] : writers[place]) & ~me;
    is_new_place |= others && !(*mine & me);
    *mine |= me;
    return others || EACH_ACCESS_IS_A_STEP;
}

static void reads(const void *at)
{
    if (is_step(at, false))
        step();
}

static void writes(const void *at)
{
    if (is_step(at, true))
        step();
}

unsigned shim_cpu(void)
{
    if (now < 0 || now >= CONTROL)
        return 0;
    return race.calls[now][world.actors[now].now].slot;
}

void *shim_alloc(size_t size)
{
    void *at = world.heap + world.used;
    world.used += (size + SHIM_LINE - 1) / SHIM_LINE * SHIM_LINE;
    return world.used <= HEAP ? memset(at, 0, size) : NULL;
}

void shim_free(void *at) { (void)at; }

long shim_load(const long *at)
{
    reads(at);
    return *at;
}

void shim_store(long *at, long n)
{
    writes(at);
    *at = n;
}

void shim_add(long *at, long n)
{
    writes(at);
    *at += n;
}

long shim_add_return(long *at, long n)
{
    shim_add(at, n);
    return *at;
}

bool shim_add_and_test(long *at, long n)
{
    shim_add(at, n);
    return !*at;
}

bool shim_add_unless(long *at, long n, long unless)
{
    writes(at);
    bool does = *at != unless;
    *at += does ? n : 0;
    return does;
}

void shim_cpu_add(unsigned long *at, unsigned long n)
{
    writes(at);
    *at += n;
}

void shim_lock(spinlock_t *lock)
{
    writes(lock);
    while (now >= 0 && lock->holder) {
        world.actors[now].status = LOCKED;
        world.actors[now].lock = lock;
        leave_actor();
    }
    if (now >= 0)
        world.actors[now].lock = NULL;
    lock->holder = now + 2;
}

void shim_unlock(spinlock_t *lock) { lock->holder = 0; }
bool shim_is_held(const spinlock_t *lock) { return lock->holder; }

/* A section that hasn't taken a step yet is as one that hasn't begun. */
void shim_rcu_lock(void)
{
    if (now >= 0)
        world.actors[now].nest++;
}

void shim_rcu_unlock(void)
{
    if (now < 0 || --world.actors[now].nest)
        return;
    world.actors[now].is_begun = false;
    for (int it = FIRST_GRACE; it < ACTORS; it++)
        world.actors[it].waits_for &= ~(1u << now);
}

bool shim_rcu_held(void) { return now < 0 || world.actors[now].nest; }

void shim_call_rcu(struct rcu_head *head, void (*then)(struct rcu_head *))
{
    int at = FIRST_GRACE;
    while (at < ACTORS && world.actors[at].head)
        at++;
    if (shim_warn(at == ACTORS, "too many grace periods at a time"))
        return;
    struct actor *it = &world.actors[at];
    head->then = then;
    it->head = head;
    it->status = READY;
    it->of_call = now == CONTROL ? world.actors[CONTROL].now : CALLS;
    for (int other = 0; other < ACTORS; other++)
        if (world.actors[other].nest && world.actors[other].is_begun)
            it->waits_for |= 1u << other;
}

void shim_prepare(wait_queue_head_t *queue)
{
    if (now >= 0) {
        is_step(queue, false);
        world.actors[now].on = queue;
        world.actors[now].is_woken = false;
    }
}

void shim_finish(wait_queue_head_t *queue)
{
    (void)queue;
    if (now >= 0) {
        world.actors[now].on = NULL;
        world.actors[now].is_woken = false;
    }
}

void shim_sleep(wait_queue_head_t *queue)
{
    (void)queue;
    if (now < 0 || shim_warn(world.actors[now].nest, "a sleep in a section of RCU"))
        return;
    if (!world.actors[now].is_woken) {
        world.actors[now].status = ASLEEP;
        leave_actor();
    }
}

void shim_wake_all(wait_queue_head_t *queue)
{
    writes(queue);
    for (int it = 0; it < ACTORS; it++)
        world.actors[it].is_woken |= world.actors[it].on == queue;
}

bool shim_warn(bool is_so, const char *what)
{
    if (is_so && !warned)
        warned = what;
    return is_so;
}

/* The functions that the compiler calls before an access of the kernel's code. */
#define PLAIN(size)                                                                                                        \
    void __tsan_read##size(void *at) { reads(at); }                                                                  \
    void __tsan_write##size(void *at) { writes(at); }                                                                \
    void __tsan_volatile_read##size(void *at) { reads(at); }                                                         \
    void __tsan_volatile_write##size(void *at) { writes(at); }
PLAIN(1)
PLAIN(2)
PLAIN(4)
PLAIN(8)
PLAIN(16)
#define ATOMIC(bits)                                                                                                       \
    uint##bits##_t __tsan_atomic##bits##_load(const volatile void *at, int order)                                          \
    {                                                                                                                      \
        (void)order;                                                                                                       \
        reads((const void *)at);                                                                                 \
        return *(const volatile uint##bits##_t *)at;                                                                       \
    }                                                                                                                      \
    void __tsan_atomic##bits##_store(volatile void *at, uint##bits##_t value, int order)                                   \
    {                                                                                                                      \
        (void)order;                                                                                                       \
        writes((void *)at);                                                                                      \
        *(volatile uint##bits##_t *)at = value;                                                                            \
    }
ATOMIC(8)
ATOMIC(16)
ATOMIC(32)
ATOMIC(64)
void __tsan_init(void) {}
void __tsan_func_entry(void *at) { (void)at; }
void __tsan_func_exit(void) {}
void __tsan_atomic_thread_fence(int order) { (void)order; }
void __tsan_read_range(void *at, unsigned long size)
{
    (void)size;
    reads(at);
}
void __tsan_write_range(void *at, unsigned long size)
{
    (void)size;
    writes(at);
}
