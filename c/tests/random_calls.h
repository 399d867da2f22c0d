/* Included by tests that make random calls, whose answers a model of plain numbers says: a test ends at the first that differs. */
#ifndef RANDOM_CALLS_H
#define RANDOM_CALLS_H
#include "any_below.h"

#include <stdio.h>
#include <stdlib.h>

static long calls;

static void is(uint64_t answer, uint64_t want, const char *what)
{
    if (answer == want)
        return;
    fprintf(stderr, "call %ld: %s is %lu, not %lu\n", calls, what, (unsigned long)answer, (unsigned long)want);
    _Exit(1);
}

#define IS(value, want) is(value, want, #value)
#endif
