/* Included by the tests of refused allocations: what is so of a gate and of a queue. Linked with --wrap=malloc, free and
 * posix_memalign, so that these refuse and all count. */
#ifndef REFUSED_H
#define REFUSED_H
#include "alike.h"
#include "any_below.h"
#include "refusing.h"

#include <stdio.h>
#include <stdlib.h>

static uint32_t uses(owner *of, seat *seats);
static bool is_as_made(const final *last);

/* How many allocations a life takes before one is refused, or -1 where none was; -2 where something else is wrong. */
static long life(long allow)
{
    owner one = {0};
    seat seats[2] = {{0}, {0}};
    final last;
    allowed = allow;
    if (make(&one, 512, 2, 0) == ERR_NO_MEMORY) {
        allowed = -1;
        return one.is_open ? -2 : allow;
    }
    long refused = -1;
    for (int i = 0; i < 2; i++)
        if (next_seat(&one, &seats[i]) == ERR_NO_MEMORY) {
            refused = allow;
            if (seats[i].is_open || (i == 1 && end(&one, &last) != ERR_SEATS_OUT))
                return -2;
            allowed = -1; /* the seat waits still */
            if (next_seat(&one, &seats[i]))
                return -2;
        }
    allowed = -1;
    if (next_seat(&one, &(seat){0}) != ERR_NO_SEAT)
        return -2;
    allowed = 0; /* from here on nothing needs memory */
    uint32_t wrong = uses(&one, seats);
    for (int i = 0; i < 2; i++)
        wrong |= take_back(&one, &seats[i]);
    wrong |= end(&one, &last) || !is_as_made(&last);
    allowed = -1;
    return wrong ? -2 : refused;
}

/* Each allocation of a life is refused in turn. */
static bool each_is_refused(void)
{
    long refused = 0, at;
    for (long allow = 0; (at = life(allow)) != -1; allow++, refused++)
        if (at != allow)
            return false;
    return refused >= 3;
}

/* One of a size gives all its seats, takes them back and ends, where no allocation is refused: each call has memory. */
static int one_size(uint32_t slots, uint32_t count, uint32_t start)
{
    static seat seats[MOST_SEATS];
    owner one = {0};
    final last;
    uint32_t refused = make(&one, slots, count, start);
    for (uint32_t i = 0; i < count && !refused; i++)
        refused = next_seat(&one, &seats[i]);
    if (refused || next_seat(&one, &(seat){0}) != ERR_NO_SEAT)
        return 1;
    for (uint32_t i = 0; i < count && !refused; i++)
        refused = take_back(&one, &seats[i]);
    return refused || end(&one, &last);
}

/* Each number of slots, and each of seats, is made and ends: none is too large. */
static int every_size(uint32_t start)
{
    for (uint32_t slots = 1; slots <= MOST_SLOTS; slots++)
        if (one_size(slots, 2, start))
            return 1;
    for (uint32_t count = 1; count <= MOST_SEATS; count++)
        if (one_size(1, count, start))
            return 1;
    return one_size(MOST_SLOTS, MOST_SEATS, start);
}

/* Nor is one of up to 64 slots and 64 seats, or one of greater sizes that are drawn. */
static int every_two_sizes(uint32_t start)
{
    for (uint32_t slots = 1; slots <= 64; slots++)
        for (uint32_t count = 1; count <= 64; count++)
            if (one_size(slots, count, start))
                return 1;
    for (int i = 0; i < 500; i++)
        if (one_size(1 + any_below(MOST_SLOTS), 1 + any_below(MOST_SEATS), start))
            return 1;
    return 0;
}

/* Each seat in turn gets no memory once, and then it does: ERR_NO_MEMORY comes where an allocation was refused, and nowhere else. */
static int each_seat_refused(void)
{
    owner one = {0};
    if (make(&one, 1, MOST_SEATS, 0))
        return 1;
    for (int i = 0; i < MOST_SEATS; i++) {
        seat its = {0};
        refusals = allowed = 0;
        uint32_t first = next_seat(&one, &its);
        allowed = -1;
        if (first != ERR_NO_MEMORY || refusals == 0 || next_seat(&one, &its))
            return 1;
        free_seat(&its);
    }
    free_owner(&one);
    return 0;
}

/* One ends with no memory at all: with a seat that is back from a refused next_seat, and with one never asked for. */
static int ends_without_memory(void)
{
    owner one = {0};
    seat its = {0};
    final last;
    if (make(&one, 2, 2, 0))
        return 1;
    allowed = 0;
    uint32_t given = next_seat(&one, &its), ended = end(&one, &last);
    allowed = -1;
    return given != ERR_NO_MEMORY || ended || one.is_open || its.is_open;
}

/* Two that are made alike. */
static int two_alike(void)
{
    owner here = {0}, there = {0};
    seat its = {0};
    final last;
    if (make(&here, 1, 1, 0) || make(&there, 1, 1, 0))
        return 1;
    if (next_seat(&there, &its) || take_back(&here, &its) != ERR_FOREIGN)
        return 2;
    return end(&here, &last) || take_back(&there, &its) || end(&there, &last);
}

/* A seat whose owner was freed counts on; a handle that is used again leads to another, though it lies where it lay. */
static int one_place_twice(void)
{
    owner one = {0};
    seat old = {0}, its = {0};
    final last;
    if (make(&one, 1, 1, 0) || next_seat(&one, &old))
        return 1;
    free_owner(&one);
    if (make(&one, 1, 1, 0) || next_seat(&one, &its))
        return 2;
    if (take_back(&one, &old) != ERR_FOREIGN || count_on(&old, 0))
        return 3;
    free_seat(&old); /* counted */
    free_seat(&old);
    return take_back(&one, &its) || end(&one, &last);
}

/* What is so of both; 0 if it all is. */
static int refused_as_it_is(void)
{
    if (!each_is_refused())
        return 1;
    for (uint32_t start = 0; start < STARTS; start++)
        if (every_size(start) || every_two_sizes(start))
            return 2;
    return each_seat_refused() || ends_without_memory() || two_alike() || one_place_twice() ? 3 : 0;
}
#endif
