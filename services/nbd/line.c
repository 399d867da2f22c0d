/* Parses the lines of the control: those lines of a script that are about its queue, as in docs/FORMATS.md, and more. */
#include "service.h"
#include <string.h>

enum { MOST_WORDS = 2 + 2 * FIELDS, MOST_DIGITS = 20 };

const char *const fields[FIELDS] = {"max_sectors", "chunk_sectors", "physical_sectors"};

/* Reads a number of 1 to 20 digits below 2^32. Returns NULL, or the fault. */
static const char *parse_number(const char *word, uint32_t *number)
{
    size_t digits = strspn(word, "0123456789");
    if (digits == 0 || digits > MOST_DIGITS || word[digits] != '\0')
        return "bad number";
    uint64_t value = 0;
    for (; *word != '\0'; word++) {
        value = value * 10 + (uint64_t)(*word - '0');
        if (value > UINT32_MAX)
            return "out of range";
    }
    *number = (uint32_t)value;
    return NULL;
}

const char *parse_seconds(char *word, uint64_t *nanoseconds)
{
    uint32_t whole = 0, place = 100000000;
    size_t digits = strspn(word, "0123456789");
    char *point = word[digits] == '.' ? word + digits : NULL;
    size_t behind = point == NULL ? 0 : strspn(point + 1, "0123456789");
    if (point != NULL && (behind == 0 || behind > 9 || point[1 + behind] != '\0'))
        return "bad number";
    if (point != NULL)
        *point = '\0';
    const char *fault = parse_number(word, &whole);
    *nanoseconds = (uint64_t)whole * 1000000000;
    for (size_t i = 1; i <= behind; i++, place /= 10)
        *nanoseconds += (uint64_t)(point[i] - '0') * place;
    return fault == NULL && *nanoseconds == 0 ? "out of range" : fault;
}

/* The index of a field's name; FIELDS if the word isn't one. */
static int field_of(const char *word)
{
    int field = 0;
    while (field < FIELDS && strcmp(word, fields[field]) != 0)
        field++;
    return field;
}

/* Each form takes the words of a line after the first, and returns NULL or the first fault. */
typedef const char *form(char *const words[], size_t count, command *parsed);

static const char *parse_alone(char *const words[], size_t count, command *parsed)
{
    (void)words, (void)parsed;
    return count > 1 ? "extra word" : NULL;
}

static const char *parse_freeze(char *const words[], size_t count, command *parsed)
{
    static const char *const names[] = {[HELD] = "hold", [LEASED] = "lease", [KEPT] = "keep"};
    for (holding how = HELD; how <= KEPT && count > 1; how++)
        if (strcmp(words[1], names[how]) == 0)
            parsed->holding = how;
    bool is_timed = parsed->holding == HELD || parsed->holding == LEASED;
    if (is_timed && count == 2)
        return "missing word";
    if (count > (is_timed ? 3 : parsed->holding == KEPT ? 2 : 1))
        return "extra word";
    return is_timed ? parse_seconds(words[2], &parsed->lasts) : NULL;
}

static const char *parse_thaw(char *const words[], size_t count, command *parsed)
{
    bool is_all = count > 1 && strcmp(words[1], "all") == 0, is_one = count > 1 && strspn(words[1], "0123456789") > 0;
    if (is_all || is_one)
        parsed->verb = is_all ? THAW_ALL : THAW_ONE;
    if (count > (is_all || is_one ? 2 : 1))
        return "extra word";
    return is_one ? parse_number(words[1], &parsed->number) : NULL;
}

static const char *parse_mode(char *const words[], size_t count, command *parsed)
{
    if (count != 2)
        return count < 2 ? "missing word" : "extra word";
    parsed->mode = strcmp(words[1], "atomic") == 0 ? FREEZE_QUEUE_MODE_ATOMIC : FREEZE_QUEUE_MODE_SLOTS;
    return parsed->mode == FREEZE_QUEUE_MODE_ATOMIC || strcmp(words[1], "slots") == 0 ? NULL : "unknown word";
}

static const char *parse_set(char *const words[], size_t count, command *parsed)
{
    if (count < 3)
        return "missing word";
    for (size_t i = 1; i < count; i += 2) {
        int field = field_of(words[i]);
        if (field == FIELDS && i == 1)
            return "unknown word";
        if (field == FIELDS || parsed->sets[field])
            return "extra word";
        if (i + 1 == count)
            return "missing word";
        parsed->sets[field] = true;
    }
    const char *fault = NULL;
    for (size_t i = 1; i < count && fault == NULL; i += 2)
        fault = parse_number(words[i + 1], &parsed->to[field_of(words[i])]);
    return fault;
}

/* snapshot prepare [once] [track] | on [COPY] | off [whole] */
static const char *parse_snapshot(char *const words[], size_t count, command *parsed)
{
    static const char *const steps[] = {[PREPARE] = "prepare", [TAKE] = "on", [END] = "off"};
    size_t next = 2;
    if (count < 2)
        return "missing word";
    while (parsed->step <= END && strcmp(words[1], steps[parsed->step]) != 0)
        parsed->step++;
    if (parsed->step > END)
        return "unknown word";
    parsed->since = parsed->step == TAKE && count > next ? words[next++] : "";
    parsed->is_whole = parsed->step == END && count > next && strcmp(words[next], "whole") == 0 && next++ > 0;
    parsed->is_once = parsed->step == PREPARE && count > next && strcmp(words[next], "once") == 0 && next++ > 0;
    parsed->is_tracked = parsed->step == PREPARE && count > next && strcmp(words[next], "track") == 0 && next++ > 0;
    return count > next ? "extra word" : NULL;
}

static const struct { const char *first; verb verb; form *parse; } forms[] = {
    {"freeze", FREEZE, parse_freeze}, {"quiesce", QUIESCE, parse_freeze},  {"flush", FLUSH_NOW, parse_alone},
    {"thaw", THAW, parse_thaw},       {"set", SET, parse_set},             {"why", WHY, parse_alone},
    {"mode", MODE, parse_mode},       {"stat", STAT, parse_alone},         {"metrics", METRICS, parse_alone},
    {"export", EXPORT, parse_alone},  {"holders", HOLDERS, parse_alone},   {"copied", COPIED_NOW, parse_alone},
    {"snapshot", SNAPSHOT, parse_snapshot}, {"address", ADDRESS_NOW, parse_alone},
    {"requests", REQUESTS, parse_alone},   {"number", NUMBER, parse_alone},
};

/* Cuts a line at spaces and tabs, and counts its words, up to MOST_WORDS. */
static size_t cut_words(char *line, char *words[MOST_WORDS])
{
    size_t count = 0;
    char *rest = NULL;
    for (char *word = strtok_r(line, " \t", &rest); word && count < MOST_WORDS; word = strtok_r(NULL, " \t", &rest))
        words[count++] = word;
    return count;
}

const char *parse(char *line, command *parsed)
{
    static const char label[] = "label ";
    char *words[MOST_WORDS];
    if (strncmp(line, label, sizeof label - 1) == 0) {
        *parsed = (command){.verb = LABEL, .label = line + sizeof label - 1};
        return NULL;
    }
    size_t count = cut_words(line, words);
    *parsed = (command){.verb = NOTHING};
    if (count == 0 || words[0][0] == '#')
        return NULL;
    for (size_t i = 0; i < sizeof forms / sizeof *forms; i++)
        if (strcmp(words[0], forms[i].first) == 0) {
            parsed->verb = forms[i].verb;
            return forms[i].parse(words, count, parsed);
        }
    return "unknown word";
}
