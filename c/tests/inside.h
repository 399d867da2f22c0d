/* Included by tests that look into the memory of a library, or write there, as no program may. Linked with --wrap=malloc, free
 * and posix_memalign, they know the blocks that the library has, and can refuse one. A word is found by its values, as the one of the
 * blocks that follows what is counted. */
#ifndef INSIDE_H
#define INSIDE_H
#include "is.h"

#include <stdbool.h>
#include <stdint.h>
#include <stdio.h>
#include <stdlib.h>
#include <string.h>

void *__real_malloc(size_t size);
int __real_posix_memalign(void **at, size_t alignment, size_t size);
void __real_free(void *at);

enum { BLOCKS = 64 };

static struct { uint64_t *at; size_t words; } blocks[BLOCKS];
static long allowed = -1; /* none refused */

static bool is_refused(void)
{
    if (allowed > 0)
        return allowed--, false;
    return allowed == 0;
}

static void *noted(void *at, size_t size)
{
    for (int i = 0; at && i < BLOCKS; i++)
        if (blocks[i].at == NULL) {
            blocks[i].at = at;
            blocks[i].words = size / 8;
            break;
        }
    return at;
}

void *__wrap_malloc(size_t size) { return is_refused() ? NULL : noted(__real_malloc(size), size); }

int __wrap_posix_memalign(void **at, size_t alignment, size_t size)
{
    const int refused = is_refused() ? 12 : __real_posix_memalign(at, alignment, size); /* ENOMEM */
    if (refused == 0)
        noted(*at, size);
    return refused;
}

void __wrap_free(void *at)
{
    for (int i = 0; at && i < BLOCKS; i++)
        if (blocks[i].at == at)
            blocks[i].at = NULL;
    __real_free(at);
}

/* The words that were as told at each look so far. */
static uint64_t *found[4096];
static size_t count;

static void first_look(uint64_t value)
{
    count = 0;
    for (int i = 0; i < BLOCKS; i++)
        for (size_t word = 0; blocks[i].at && word < blocks[i].words; word++)
            if (blocks[i].at[word] == value && count < sizeof found / sizeof *found)
                found[count++] = &blocks[i].at[word];
}

static void look_again(uint64_t value)
{
    size_t left = 0;
    for (size_t i = 0; i < count; i++)
        if (*found[i] == value)
            found[left++] = found[i];
    count = left;
}

/* The one that is left. */
static uint64_t *the_word(const char *of)
{
    if (count == 1)
        return found[0];
    fprintf(stderr, "%zu words may be the count of %s\n", count, of);
    exit(1);
}

/* The word that counts the shares: the first one's, and one for each of three handles that are given and taken back. */
static inline uint64_t *word_of_shares(void (*gives)(int), void (*takes_back)(int))
{
    first_look(1);
    for (int i = 0; i < 3; i++) {
        gives(i);
        look_again(2 + (uint64_t)i);
    }
    for (int i = 3; i-- > 0;) {
        takes_back(i);
        look_again(1 + (uint64_t)i);
    }
    return the_word("shares");
}

static long blocks_now(void)
{
    long now = 0;
    for (int i = 0; i < BLOCKS; i++)
        now += blocks[i].at != NULL;
    return now;
}

static struct { uint64_t *at; uint64_t words[4096]; } kept[BLOCKS];

/* Notes the words of all blocks. */
static inline void keep_all(void)
{
    for (int i = 0; i < BLOCKS; i++) {
        kept[i].at = blocks[i].words <= 4096 ? blocks[i].at : NULL;
        if (kept[i].at)
            memcpy(kept[i].words, kept[i].at, blocks[i].words * 8);
    }
}

/* How many words aren't as they were, of the blocks that are there still. */
static inline long words_changed(void)
{
    long changed = 0;
    for (int i = 0; i < BLOCKS; i++)
        for (size_t w = 0; kept[i].at && kept[i].at == blocks[i].at && w < blocks[i].words; w++)
            changed += kept[i].words[w] != blocks[i].at[w];
    return changed;
}
#endif
