/* Reads a script line by line, split into words, for all drivers. */
#ifndef LINES_H
#define LINES_H
#include <inttypes.h>
#include <stdbool.h>
#include <stdint.h>
#include <stdio.h>
#include <stdlib.h>
#include <string.h>

static char line_text[256], *line_words[12];
static unsigned line_count;

/* Whether there is a further line with words. */
static inline bool next_line(void)
{
    while (fgets(line_text, sizeof line_text, stdin)) {
        line_count = 0;
        for (char *it = strtok(line_text, " \n"); it && line_count < 12; it = strtok(NULL, " \n"))
            line_words[line_count++] = it;
        if (line_count)
            return true;
    }
    return false;
}

static inline bool is(const char *word) { return line_count && !strcmp(line_words[0], word); }
static inline bool has_word(unsigned at, const char *word) { return line_count > at && !strcmp(line_words[at], word); }

static inline bool is_start(unsigned at) { return has_word(at, "slots") || has_word(at, "atomic") || has_word(at, "dead"); }

/* The number at a place, 0 if there is none. */
static inline uint64_t number(unsigned at) { return at < line_count ? strtoull(line_words[at], NULL, 10) : 0; }

static inline const char *yes_no(bool is_so) { return is_so ? "yes" : "no"; }
#endif
