/* Included by tests that end at the first thing that doesn't hold. */
#ifndef NEED_H
#define NEED_H
#include <stdbool.h>
#include <stdio.h>
#include <stdlib.h>

static void need(bool holds, const char *what)
{
    if (holds)
        return;
    fprintf(stderr, "%s: %s\n", __BASE_FILE__, what);
    _Exit(1); /* other threads may run still */
}
#endif
