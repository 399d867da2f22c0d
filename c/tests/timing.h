/* Rounds on several threads at once, timed by the clock. The programs that time the libraries include it. */
#ifndef TIMING_H
#define TIMING_H

#include <pthread.h>
#include <stdatomic.h>
#include <stdbool.h>
#include <stdint.h>
#include <stdio.h>
#include <stdlib.h>
#include <time.h>

enum { MOST_THREADS = 63 };

static uint32_t threads;
static long rounds;
static pthread_barrier_t start;

static void need(bool holds, const char *what)
{
    if (!holds) {
        fprintf(stderr, "speed: %s\n", what);
        exit(1);
    }
}

/* A word as a number from 1 to MOST. */
static long number_of(const char *word, long most)
{
    char *end;
    long number = strtol(word, &end, 10);
    need(end != word && *end == '\0' && number >= 1 && number <= most, "a number is out of range");
    return number;
}

/* The clock, in nanoseconds. */
static double now(void)
{
    struct timespec at;
    clock_gettime(CLOCK_MONOTONIC, &at);
    return (double)at.tv_sec * 1e9 + (double)at.tv_nsec;
}

struct runner {
    pthread_t id;
    uint32_t number;
    void (*run)(uint32_t number);
    double began, ended;
};

static void *begin(void *at)
{
    struct runner *runner = at;
    pthread_barrier_wait(&start);
    runner->began = now();
    runner->run(runner->number);
    runner->ended = now();
    return NULL;
}

/* Calls run on all threads at once, and meanwhile on this one. Returns the nanoseconds from the first thread's begin to the
 * last one's end. */
static double at_once(void (*run)(uint32_t), void (*meanwhile)(void))
{
    static struct runner all[MOST_THREADS];
    need(pthread_barrier_init(&start, NULL, threads + 1) == 0, "no barrier");
    for (uint32_t i = 0; i < threads; i++) {
        all[i] = (struct runner){.number = i, .run = run};
        need(pthread_create(&all[i].id, NULL, begin, &all[i]) == 0, "no thread");
    }
    pthread_barrier_wait(&start);
    if (meanwhile)
        meanwhile();
    for (uint32_t i = 0; i < threads; i++)
        pthread_join(all[i].id, NULL);
    pthread_barrier_destroy(&start);
    double began = all[0].began, ended = all[0].ended;
    for (uint32_t i = 1; i < threads; i++) {
        began = all[i].began < began ? all[i].began : began;
        ended = all[i].ended > ended ? all[i].ended : ended;
    }
    return ended - began;
}

/* A word that one thread writes, alone on its 128 bytes. */
struct own_word { _Alignas(128) _Atomic uint64_t count; };

/* A look and an exchange, as the gate counts on a slot. */
static inline void step(_Atomic uint64_t *word, uint64_t more)
{
    uint64_t seen = atomic_load(word);
    atomic_compare_exchange_strong(word, &seen, seen + more);
}

#endif
