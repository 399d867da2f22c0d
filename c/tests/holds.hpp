/* Included by tests in C++: prints the line of what doesn't hold, and counts these. */
#ifndef HOLDS_HPP
#define HOLDS_HPP
#include <cstdio>

static int failures;

static void is(const char *what, bool holds, int line)
{
    if (holds)
        return;
    std::fprintf(stderr, "line %d: not %s\n", line, what);
    failures++;
}

#define IS(holds) is(#holds, holds, __LINE__)
#endif
