/* Gates, or queues, that several threads make, use and end at once, more than a million in all: no number is drawn twice, and each is
 * what the seat tells. Where there is memory no call is refused, so never by ERR_NO_MEMORY or ERR_IN_USE. Words: gates of each thread. */
#define _POSIX_C_SOURCE 200809L
#include "alike.h"
#include "drawing.h"
#include "moment.h"

#include <stdatomic.h>

static atomic_long arrived;

enum { MEETINGS = 1000 };

/* Waits until every thread has come as far, so that they make gates at once even if the machine is busy. There each meeting takes a while,
 * so there are a thousand at most. */
static void meet(void)
{
    long all = (atomic_fetch_add(&arrived, 1) / THREADS + 1) * THREADS;
    for (long spins = 0; atomic_load(&arrived) < all; spins++)
        if (spins > 10000)
            moment();
}

static void *make_each(void *of)
{
    uint64_t *mine = of;
    for (long i = 0; i < turns; i++) {
        if (i % 8 == 0 && i / 8 < MEETINGS)
            meet();
        owner one = {0};
        seat its = {0};
        final last;
        uint32_t start = (uint32_t)(i % STARTS); /* the third is dead */
        need(make(&one, 1, 1, start) == OK, "none is made");
        need(next_seat(&one, &its) == OK, "no seat");
        mine[i] = owner_number(&one);
        need(seat_number(&its) == mine[i], "the seat tells another number");
        need(i == 0 || mine[i] > mine[i - 1], "a number isn't above the last");
        bool is_counted = count_on(&its, 0) == OK;
        need(is_counted == (start < 2), "a live one refuses, or a dead one counts");
        need(!is_counted || count_off(&its, 0) == OK, "it isn't taken off");
        need(take_back(&one, &its) == OK, "the seat isn't taken back");
        need(end(&one, &last) == OK, "no end");
    }
    return NULL;
}

int main(int argc, char **argv) { return draws_each_once(argc, argv, make_each); }
