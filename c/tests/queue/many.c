/* Many queues, one after another: each is made, gives a tag, takes the tag back and ends. No call answers ERR_IN_USE or ERR_NO_MEMORY,
 * also behind the millionth queue. Then the greatest queue gives all its tags and takes them back, again and again, for each of
 * sixteen devices. Word: how many queues. */
#include "freeze_queue.h"

#include <stdio.h>
#include <stdlib.h>

static freeze_queue freezer;
static freeze_queue_tag tags[FREEZE_QUEUE_MOST_TAGS];
static long turn;

static void is_ok(uint32_t answer, const char *what)
{
    if (answer == FREEZE_QUEUE_OK)
        return;
    fprintf(stderr, "turn %ld: %s: %s\n", turn, what, freeze_queue_text(answer));
    exit(1);
}

static void lives_once(const freeze_queue_limits *limits, uint32_t slots, uint32_t count)
{
    freeze_queue_final last;
    is_ok(freeze_queue_new(&freezer, limits, slots, count), "new");
    is_ok(freeze_queue_next_tag(&freezer, &tags[0]), "next_tag");
    is_ok(freeze_queue_give_tag_back(&freezer, &tags[0]), "give_tag_back");
    is_ok(freeze_queue_remove(&freezer, &last), "remove");
}

/* The greatest queue, whose tags all go out and come back. */
static void gives_all(const freeze_queue_limits *limits, long times)
{
    freeze_queue_final last;
    is_ok(freeze_queue_new(&freezer, limits, FREEZE_QUEUE_MOST_SLOTS, FREEZE_QUEUE_MOST_TAGS), "new");
    for (turn = 0; turn < times; turn++) {
        for (int i = 0; i < FREEZE_QUEUE_MOST_TAGS; i++)
            is_ok(freeze_queue_next_tag(&freezer, &tags[i]), "next_tag");
        for (int i = 0; i < FREEZE_QUEUE_MOST_TAGS; i++)
            is_ok(freeze_queue_give_tag_back(&freezer, &tags[i]), "give_tag_back");
    }
    is_ok(freeze_queue_remove(&freezer, &last), "remove");
}

int main(int argc, char **argv)
{
    long count = argc > 1 ? atol(argv[1]) : 1000;
    for (turn = 0; turn < count; turn++) {
        const freeze_queue_limits limits = {1 + (uint32_t)turn % 65535, 0, 0, 1};
        lives_once(&limits, 1, 1 + (uint32_t)turn % 2);
    }
    for (uint32_t hardware = 1; hardware <= 16; hardware++) {
        const freeze_queue_limits limits = {hardware, 0, 0, 1};
        gives_all(&limits, 1 + count / 16000);
    }
    printf("all ended\n");
    return 0;
}
