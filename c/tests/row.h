/* Included by tests that answer a row of calls from standard input: docs/FORMATS.md has the format. */
#ifndef ROW_H
#define ROW_H
#include <inttypes.h>
#include <stdbool.h>
#include <stdio.h>
#include <string.h>

enum { LONGEST_LINE = 512 };

/* Makes what the second line says, and asks each call behind it, of an actor and with up to three numbers. The status. */
static int answers_row(bool (*make)(char *line), void (*ask)(const char *actor, const char *call, const uint64_t *numbers))
{
    char line[LONGEST_LINE], actor[32], call[32];
    if (!fgets(line, sizeof line, stdin) || strcmp(line, "calls 1\n") || !fgets(line, sizeof line, stdin) || !make(line))
        return 2;
    while (fgets(line, sizeof line, stdin)) {
        uint64_t numbers[3] = {0};
        if (sscanf(line, "%31s %31s %" SCNu64 " %" SCNu64 " %" SCNu64, actor, call, &numbers[0], &numbers[1], &numbers[2]) < 2)
            return 2;
        ask(actor, call, numbers);
    }
    return 0;
}
#endif
