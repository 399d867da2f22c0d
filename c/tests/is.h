/* Included by tests: compares values, prints the line of one that differs, and counts these. */
#ifndef IS_H
#define IS_H
#include <stdint.h>
#include <stdio.h>

static int failures;

static void is(const char *what, uint64_t value, uint64_t want, int line)
{
    if (value == want)
        return;
    fprintf(stderr, "line %d: %s is %lu, not %lu\n", line, what, (unsigned long)value, (unsigned long)want);
    failures++;
}

#define TELLS(value, want) is(#value, (uint64_t)(value), want, __LINE__)

/* The places of a handle's fields, and of those that each final has. (With stddef.h.) */
#define HANDLE_IS_LAID_OUT(type) \
    (TELLS(sizeof(type), 32), TELLS(offsetof(type, is_open), 0), TELLS(offsetof(type, at), 8), TELLS(offsetof(type, reserved), 16))
#define FINAL_IS_LAID_OUT(type, size) \
    (TELLS(sizeof(type), size), TELLS(offsetof(type, dead), 0), TELLS(offsetof(type, kills), 8), TELLS(offsetof(type, releases), 16))
#endif
