/* Runs the kernel's percpu_ref on threads. Some threads get and put, and read plain memory meanwhile; one kills, writes that memory after the
 * release, and revives. Each thread is a processor. The shims are atomics, a lock, and RCU with a counter for each thread.
 *
 * usage: threads THREADS ROUNDS    prints the numbers of kills and releases, and of references given and refused */
#include "../shims/shim.h"
#include "ref_calls.h"
#include <pthread.h>
#include <sched.h>
#include <stdatomic.h>
#include <stdint.h>
#include <stdio.h>
#include <stdlib.h>
#include <string.h>

enum { MOST = 16, WORDS = 8 };
#ifndef SHIM_UNORDERED
#define SHIM_UNORDERED __ATOMIC_SEQ_CST
#endif

unsigned shim_cpus = SHIM_CPUS;
static _Thread_local unsigned me;
static _Thread_local unsigned nest;

/* A section of RCU of each thread: odd while it is in one. */
static struct { _Alignas(128) atomic_ulong section; } readers[MOST + 2];
static pthread_mutex_t mutex = PTHREAD_MUTEX_INITIALIZER;
static pthread_cond_t changed = PTHREAD_COND_INITIALIZER;
static struct rcu_head *callbacks;
static bool is_over;
static atomic_ulong warnings;

unsigned shim_cpu(void) { return me; }
void *shim_alloc(size_t size)
{
    void *at = aligned_alloc(128, (size + 127) / 128 * 128);
    return at ? memset(at, 0, size) : NULL;
}
void shim_free(void *at) { free(at); }
long shim_load(const long *at) { return __atomic_load_n(at, __ATOMIC_RELAXED); }
void shim_store(long *at, long n) { __atomic_store_n(at, n, __ATOMIC_RELAXED); }
/* The kernel documents no order of this one. It has one on x86, and without it nothing orders a try after a revival. */
void shim_add(long *at, long n) { __atomic_fetch_add(at, n, SHIM_UNORDERED); }
long shim_add_return(long *at, long n) { return __atomic_add_fetch(at, n, __ATOMIC_SEQ_CST); }
bool shim_add_and_test(long *at, long n) { return __atomic_add_fetch(at, n, __ATOMIC_SEQ_CST) == 0; }
bool shim_add_unless(long *at, long n, long unless)
{
    long was = __atomic_load_n(at, __ATOMIC_RELAXED);
    while (was != unless && !__atomic_compare_exchange_n(at, &was, was + n, true, __ATOMIC_SEQ_CST, __ATOMIC_RELAXED))
        ;
    return was != unless;
}
/* No other thread is on this processor, so plain memory does. */
void shim_cpu_add(unsigned long *at, unsigned long n) { *at += n; }

void shim_lock(spinlock_t *lock)
{
    while (__atomic_exchange_n(&lock->holder, 1, __ATOMIC_ACQUIRE))
        sched_yield();
}
void shim_unlock(spinlock_t *lock) { __atomic_store_n(&lock->holder, 0, __ATOMIC_RELEASE); }
bool shim_is_held(const spinlock_t *lock) { return __atomic_load_n(&lock->holder, __ATOMIC_RELAXED); }

void shim_rcu_lock(void)
{
    if (!nest++)
        atomic_fetch_add(&readers[me].section, 1);
}
void shim_rcu_unlock(void)
{
    if (!--nest)
        atomic_fetch_add(&readers[me].section, 1);
}
bool shim_rcu_held(void) { return nest; }

void shim_call_rcu(struct rcu_head *head, void (*then)(struct rcu_head *))
{
    pthread_mutex_lock(&mutex);
    head->then = then;
    head->next = callbacks;
    callbacks = head;
    pthread_cond_broadcast(&changed);
    pthread_mutex_unlock(&mutex);
}

/* Waits for the sections that it finds, and runs the callbacks. */
static void *end_graces(void *it)
{
    me = (unsigned)(uintptr_t)it;
    for (;;) {
        pthread_mutex_lock(&mutex);
        while (!callbacks && !is_over)
            pthread_cond_wait(&changed, &mutex);
        struct rcu_head *head = callbacks;
        callbacks = NULL;
        pthread_mutex_unlock(&mutex);
        if (!head)
            return NULL;
        for (unsigned other = 0; other < MOST + 2; other++) {
            unsigned long found = other == me ? 0 : atomic_load(&readers[other].section);
            while (found % 2 && atomic_load(&readers[other].section) == found)
                sched_yield();
        }
        while (head) {
            struct rcu_head *next = head->next;
            head->then(head);
            head = next;
        }
    }
}

static _Thread_local unsigned long seen;
void shim_prepare(wait_queue_head_t *queue) { seen = __atomic_load_n(&queue->wakes, __ATOMIC_SEQ_CST); }
void shim_finish(wait_queue_head_t *queue) { (void)queue; }
void shim_sleep(wait_queue_head_t *queue)
{
    while (__atomic_load_n(&queue->wakes, __ATOMIC_SEQ_CST) == seen)
        sched_yield();
}
void shim_wake_all(wait_queue_head_t *queue) { __atomic_fetch_add(&queue->wakes, 1, __ATOMIC_SEQ_CST); }

bool shim_warn(bool is_so, const char *what)
{
    if (is_so && !atomic_fetch_add(&warnings, 1))
        fprintf(stderr, "the kernel warns: %s\n", what);
    return is_so;
}

static struct percpu_ref *ref;
static atomic_ulong releases, given, refused, wrong;
static atomic_bool is_stopping;
/* Written after a release, read while a reference is held: one number in all words. */
static unsigned long guarded[WORDS];

static void on_release(struct percpu_ref *of)
{
    (void)of;
    atomic_fetch_add(&releases, 1);
}

static void read_guarded(void)
{
    for (int it = 1; it < WORDS; it++)
        if (guarded[it] != guarded[0])
            atomic_fetch_add(&wrong, 1);
}

static void *get_and_put(void *it)
{
    me = (unsigned)(uintptr_t)it;
    for (unsigned turn = 0; !atomic_load_explicit(&is_stopping, memory_order_relaxed); turn++) {
        if (!(turn % 3 ? ref_live : ref_try)(ref)) {
            atomic_fetch_add_explicit(&refused, 1, memory_order_relaxed);
            continue;
        }
        read_guarded();
        if (turn % 5 == 0) {
            ref_get(ref, 2);
            ref_put(ref, 2);
        }
        ref_put(ref, 1);
        atomic_fetch_add_explicit(&given, 1, memory_order_relaxed);
    }
    return NULL;
}

/* Waits until some thread was given a reference in this life: each may still count one of the life before. */
static void wait_for_use(unsigned long threads)
{
    unsigned long before = atomic_load_explicit(&given, memory_order_relaxed);
    while (atomic_load_explicit(&given, memory_order_relaxed) <= before + threads)
        sched_yield();
}

/* A kill whose release is waited for, and a setting. */
static void kill_and_set(unsigned long round)
{
    unsigned long before = atomic_load(&releases);
    if (round % 5 == 0)
        (round % 2 ? ref_atomic : ref_slots)(ref);
    ref_kill(ref);
    while (atomic_load(&releases) == before)
        sched_yield();
    for (int it = 0; it < WORDS; it++)
        guarded[it] = round;
    ref_reinit(ref);
}

/* A kill that is taken back at once, or when nothing is held. The release of one that is taken back may come late. */
static void kill_and_take_back(unsigned long round)
{
    ref_kill(ref);
    while (round % 2 && !ref_zero(ref))
        sched_yield();
    ref_resurrect(ref);
}

int main(int count, char **words)
{
    unsigned long threads = count > 1 ? strtoul(words[1], NULL, 10) : 3, rounds = count > 2 ? strtoul(words[2], NULL, 10) : 10000;
    pthread_t of_graces, of_users[MOST];
    ref = malloc(ref_size());
    me = MOST;
    if (threads < 1 || threads > MOST || !ref || !ref_init(ref, on_release, "slots"))
        return 2;
    pthread_create(&of_graces, NULL, end_graces, (void *)(uintptr_t)(MOST + 1));
    for (unsigned long it = 0; it < threads; it++)
        pthread_create(&of_users[it], NULL, get_and_put, (void *)it);
    for (unsigned long round = 0; round < rounds; round++) {
        wait_for_use(threads);
        kill_and_set(round);
    }
    unsigned long of_settings = atomic_load(&releases);
    for (unsigned long round = 0; round < rounds; round++)
        kill_and_take_back(round);
    atomic_store(&is_stopping, true);
    for (unsigned long it = 0; it < threads; it++)
        pthread_join(of_users[it], NULL);
    ref_kill(ref);
    while (!ref_zero(ref))
        sched_yield();
    pthread_mutex_lock(&mutex);
    is_over = true;
    pthread_cond_broadcast(&changed);
    pthread_mutex_unlock(&mutex);
    pthread_join(of_graces, NULL);
    unsigned long of_others = atomic_load(&releases) - of_settings;
    printf("kills %lu, releases %lu; kills that may be taken back %lu, releases %lu; given %lu, refused %lu\n", rounds, of_settings,
           rounds + 1, of_others, atomic_load(&given), atomic_load(&refused));
    bool is_right = of_settings == rounds && of_others <= rounds + 1 && of_others > rounds / 2;
    return !is_right || atomic_load(&wrong) || atomic_load(&warnings) || !ref_zero(ref);
}
