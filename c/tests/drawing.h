/* Included by tests in which several threads make gates or queues and draw a number for each. The test has the function that a thread
 * runs: it stores `turns` numbers from where it is told. */
#ifndef DRAWING_H
#define DRAWING_H
#include "need.h"

#include <pthread.h>
#include <stdbool.h>
#include <stdint.h>
#include <stdio.h>
#include <stdlib.h>

enum { THREADS = 4 };

static long turns;

/* Runs the threads, with as many turns as the first word says. No number is drawn twice. */
static int draws_each_once(int argc, char **argv, void *(*make)(void *))
{
    turns = argc > 1 ? atol(argv[1]) : 10000;
    size_t all = (size_t)turns * THREADS;
    uint64_t *drawn = calloc(all, sizeof *drawn); /* of each thread in turn */
    pthread_t threads[THREADS];
    char *seen = calloc(all + 1, 1);
    need(drawn != NULL && seen != NULL, "no memory");
    for (long i = 0; i < THREADS; i++)
        need(pthread_create(&threads[i], NULL, make, drawn + i * turns) == 0, "no thread");
    for (int i = 0; i < THREADS; i++)
        pthread_join(threads[i], NULL);
    for (size_t i = 0; i < all; i++) { /* they are 1 and so on, each once */
        need(drawn[i] >= 1 && drawn[i] <= all && !seen[drawn[i]], "a number is drawn twice");
        seen[drawn[i]] = 1;
    }
    free(seen);
    free(drawn);
    printf("each once\n");
    return 0;
}
#endif
