/* Included by tests of what a header tells the thread sanitizer: for each call and each answer whether it tells of a release before
 * the call, and of an acquire after it, as "Order" promises. Too little would be a false report, and too much would hide a race.
 * The sanitizer is a stand-in here, as are the calls of the test, so it is the same with every compiler. */
#ifndef TELLING_H
#define TELLING_H
#include <stdbool.h>
#include <stdint.h>
#include <stdio.h>
#include <string.h>

static uint64_t number;   /* of the gate or the queue */
static uint32_t answers;  /* what the next call answers */
static char steps[8];     /* r a release, c the call, a an acquire */
static void *places[2];   /* that were released and acquired */

static void step(char what)
{
    size_t length = strlen(steps);
    if (length + 1 < sizeof steps)
        steps[length] = what;
}

static uint32_t called(bool rightly)
{
    step('c');
    return rightly ? answers : 99;
}

void __tsan_release(void *at)
{
    places[0] = at;
    step('r');
}
void __tsan_acquire(void *at)
{
    places[1] = at;
    step('a');
}
void __tsan_ignore_thread_begin(void) {}
void __tsan_ignore_thread_end(void) {}

/* A call, the steps of an answer that tells of nothing, and those of its answers that order memory. */
struct call {
    const char *name;
    uint32_t (*call)(void);
    bool is_question;
    const char *plain, *ordering;
    uint32_t orders[2];
};

static int failures;

static void tell(const struct call *call, uint32_t answer, void *order)
{
    bool orders = answer == call->orders[0] || answer == call->orders[1];
    const char *want = orders ? call->ordering : call->plain;
    memset(steps, 0, sizeof steps);
    memset(places, 0, sizeof places);
    answers = answer;
    uint32_t told = call->call();
    bool there = (strchr(want, 'r') == NULL || places[0] == order) && (strchr(want, 'a') == NULL || places[1] == order);
    if (told == answer && strcmp(steps, want) == 0 && there)
        return;
    fprintf(stderr, "%s, which is to answer %u by the steps %s: %u, %s%s\n", call->name, answer, want, told, steps,
            there ? "" : ", at another place");
    failures++;
}

/* Tries each of so many calls, for several numbers: the place that orders a number is the one of that number. */
static int told_as_promised(const struct call *calls, size_t count, uint64_t *orders)
{
    for (number = 1; number <= 257; number += 64)
        for (size_t at = 0; at < count; at++)
            for (uint32_t answer = 0; answer <= (calls[at].is_question ? 1 : 45); answer++)
                tell(&calls[at], answer, &orders[number % 256]);
    printf("%s\n", failures ? "FAILED" : "as ordered");
    return failures != 0;
}
#endif
