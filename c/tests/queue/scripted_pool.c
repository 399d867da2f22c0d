/* The pool of tags by a script, on one thread (scripted.h): who waits for a tag is woken by whoever gives one back, looks
 * before it sleeps and once more after its deadline, and who finds a tag takes no lock. */
#define _POSIX_C_SOURCE 200809L
#include "inline.h"
#include "readable.h"
#include "scripted.h"

#include <fcntl.h>

#include "freeze_queue_pool.h"
#include "takes_waiting.h"

static freeze_queue freezer;
static freeze_queue_waits waits;
static freeze_queue_pool pool;
static freeze_queue_tag *out[2], *second;
static const struct timespec soon = {1, 0};

static void gives(int which)
{
    freeze_queue_tag *tag = out[which];
    out[which] = NULL;
    need(tag != NULL, "nothing to give");
    IS(freeze_queue_pool_give(&pool, tag), OK);
}
static void gives_first(void) { gives(0); }
static void gives_second(void) { gives(1); }
static void gives_first_untold(void)
{
    const freeze_queue_pooled *pooled = (freeze_queue_pooled *)(void *)out[0];
    *pooled->word &= ~pooled->mark;
    out[0] = NULL;
}
static void second_waits(void) { second = takes_waiting(&pool, 0, NULL); }
/* A tag is given back, and another thread that doesn't wait takes it first. */
static void gives_and_takes(void)
{
    gives(0);
    out[0] = freeze_queue_pool_take(&pool, 0);
    need(out[0] != NULL, "the tag isn't there");
}

static void takes_all(void)
{
    for (int i = 0; i < 2; i++)
        TELLS((out[i] = takes_waiting(&pool, (uint32_t)i, NULL)) == &IN_POOL->tags[i].tag, true);
}

/* Takes a tag that the script gives back, and gives both back. */
static void takes_what_is_given(const struct timespec *deadline)
{
    freeze_queue_tag *tag = takes_waiting(&pool, 0, deadline);
    TELLS(tag != NULL && have_acted(), true);
    TELLS(IN_POOL->waiting, 0);
    for (int i = 0; i < 2; i++)
        if (out[i] == NULL) {
            out[i] = tag;
            tag = second;
        }
    gives_first();
    gives_second();
}

/* A word isn't awaited any more once a tag of it has come back while no call waited: then giving takes no lock. */
static void giving_takes_no_lock_again(void)
{
    for (int turn = 0; turn < 2; turn++) {
        long before = locks;
        takes_all();
        gives_first();
        gives_second();
        TELLS(turn == 0 || locks == before, true);
    }
}

/* One tag that is out, whichever it is, is seen by who empties the greatest pool. */
static void each_tag_that_is_out_is_seen(const freeze_queue_limits *limits)
{
    static freeze_queue all;
    static freeze_queue_pool greatest;
    static freeze_queue_waits waits_of_all;
    freeze_queue_final last;
    IS(freeze_queue_new(&all, limits, 1, FREEZE_QUEUE_MOST_TAGS), OK);
    IS(freeze_queue_waits_init(&waits_of_all, &all), OK);
    IS(freeze_queue_pool_fill(&greatest, &waits_of_all, FREEZE_QUEUE_MOST_TAGS), OK);
    for (uint32_t place = 0; place < FREEZE_QUEUE_MOST_TAGS; place++) {
        freeze_queue_tag *tag = freeze_queue_pool_take(&greatest, place);
        TELLS(tag == &freeze_queue_pool_state_of(&greatest)->tags[place].tag, true);
        IS(freeze_queue_pool_empty(&greatest), ERR_TAGS_OUT);
        IS(freeze_queue_pool_give(&greatest, tag), OK);
    }
    IS(freeze_queue_pool_empty(&greatest), OK);
    IS(freeze_queue_waits_end(&waits_of_all, &last, NULL), OK);
}

/* A tag that is given back twice is told, also if a call waits: then once more under the lock, and no other is woken for it. */
static void gives_twice(void)
{
    freeze_queue_tag *tag = out[0];
    gives(0);
    IS(freeze_queue_pool_give(&pool, tag), ERR_TAG_NOT_OUT);
}
static void a_second_giving_is_told(void)
{
    takes_all();
    freeze_queue_tag *tag = out[0];
    gives_first();
    IS(freeze_queue_pool_give(&pool, tag), ERR_TAG_NOT_OUT);
    TELLS((out[0] = freeze_queue_pool_take(&pool, 0)) == tag, true);
    acts(gives_twice, NULL, NULL);
    takes_what_is_given(NULL);
}

/* ---- Looked into ---- */

static void tags_in_flight_are_listed(void)
{
    freeze_queue_taken list[2] = {{9, 9, 9, 9}, {9, 9, 9, 9}};
    TELLS(freeze_queue_pool_in_flight(&pool, list, 2), 0);
    out[0] = freeze_queue_pool_take(&pool, 0); /* nobody watches yet */
    uint64_t before = freeze_queue_nanoseconds();
    freeze_queue_pool_watch(&pool, true);
    out[1] = freeze_queue_pool_take(&pool, 41);
    TELLS(freeze_queue_pool_in_flight(&pool, list, 0), 2);
    TELLS(list[0].place, 9);
    TELLS(freeze_queue_pool_in_flight(&pool, list, 2), 2);
    TELLS(list[0].place == 0 && list[0].since == 0 && list[0].slot == 0 && list[0].thread == 0, true);
    TELLS(list[1].place == 1 && list[1].slot == 41 && list[1].thread == (uint64_t)(uintptr_t)pthread_self(), true);
    TELLS(list[1].since >= before && list[1].since <= freeze_queue_nanoseconds(), true);
    gives_second();
    TELLS(freeze_queue_pool_in_flight(&pool, list, 2), 1);
    freeze_queue_pool_watch(&pool, false);
    out[1] = freeze_queue_pool_take(&pool, 1);
    TELLS(freeze_queue_pool_in_flight(&pool, list, 2), 2);
    TELLS(list[1].place == 1 && list[1].since == 0 && list[1].thread == 0, true); /* not as it was noted before */
    gives_first();
    gives_second();
}

/* ---- The end ---- */

static freeze_queue_waits waits;
/* The list has what is out, and not what an end has taken. It looks under the lock, under which the end takes tags. */
static void lists(uint32_t count, uint32_t first)
{
    freeze_queue_taken list[2] = {{9, 9, 9, 9}, {9, 9, 9, 9}};
    const long before = locks;
    TELLS(freeze_queue_pool_in_flight(&pool, list, 2), count);
    TELLS(list[0].place, first);
    TELLS(locks - before, IN_POOL->count > 0);
}
static void none_is_there(void)
{
    TELLS(takes_waiting(&pool, 1, NULL) == NULL, true);
    lists(1, 1);
}
static void none_is_there_to_poll(void)
{
    TELLS(freeze_queue_pool_take(&pool, 0) == NULL && is_readable(freeze_queue_pool_event(&pool)), true);
}
static void the_pool_ends(void)
{
    takes_all();
    acts(gives_first, none_is_there, NULL);
    IS(freeze_queue_pool_end(&pool, &soon), ERR_TIMED_OUT);
    TELLS(have_acted() && IN_POOL->count == 2 && !IN_POOL->is_ending, true);
    lists(1, 1);
    TELLS((out[0] = freeze_queue_pool_take(&pool, 0)) == &IN_POOL->tags[0].tag, true);
    lists(2, 0);
    acts(wakes_by_itself, gives_second, gives_first);
    IS(freeze_queue_pool_end(&pool, NULL), OK);
    TELLS(have_acted() && IN_POOL->count == 0 && locked == NULL && !has_lock, true);
    lists(0, 9);
    IS(freeze_queue_pool_end(&pool, NULL), ERR_CLOSED);
    TELLS(freeze_queue_pool_take(&pool, 0) == NULL && takes_waiting(&pool, 0, NULL) == NULL, true);
    IS(freeze_queue_pool_fill(&pool, &waits, 2), ERR_OPEN);
    IS(freeze_queue_pool_destroy(&pool), OK);
    IS(freeze_queue_pool_fill(&pool, &waits, 2), OK);
    IS(freeze_queue_pool_destroy(&pool), ERR_OPEN);
    takes_all();
    gives_first();
    gives_second();
}

/* The last tag comes back while the end sleeps, and nobody has notified it by its deadline: it looks once more. It locks the
 * pool once, and waits for each of two tags. */
static void the_end_looks_after_its_deadline(void)
{
    takes_all();
    gives_second();
    acts(gives_first_untold, NULL, NULL);
    const long before = locks;
    IS(freeze_queue_pool_end(&pool, &soon), OK);
    TELLS(have_acted() && IN_POOL->count == 0, true);
    TELLS(locks - before, 3);
    IS(freeze_queue_pool_destroy(&pool), OK);
    IS(freeze_queue_pool_fill(&pool, &waits, 2), OK);
}

#if defined(__linux__)
/* The event for a thread that waits in poll: readable from a tag that comes back on, until a call finds none again. */
static bool shows(void) { return is_readable(freeze_queue_pool_event(&pool)); }
static void a_pool_has_an_event(void)
{
    TELLS(freeze_queue_pool_event(&pool), (uint64_t)-1);
    IS(freeze_queue_pool_open_event(&pool), OK);
    IS(freeze_queue_pool_open_event(&pool), ERR_OPEN);
    TELLS(shows(), true);
    takes_all();
    TELLS(shows(), true); /* no call has found none */
    before_lock = gives_first; /* before it is armed: the call looks once more */
    TELLS((out[0] = freeze_queue_pool_take(&pool, 1)) == &IN_POOL->tags[0].tag && shows(), true);
    for (int i = 0; i < 2; i++) {
        TELLS(freeze_queue_pool_take(&pool, 0) == NULL && !shows(), true);
        TELLS(freeze_queue_pool_take(&pool, 1) == NULL && !shows(), true);
        gives(i);
        TELLS(shows(), true);
        TELLS((out[i] = freeze_queue_pool_take(&pool, 0)) != NULL && shows(), true);
    }
    /* A call that sleeps and one that polls: both go on. */
    TELLS(freeze_queue_pool_take(&pool, 0) == NULL && !shows(), true);
    acts(gives_first, NULL, NULL);
    takes_what_is_given(NULL);
    TELLS(have_acted() && shows(), true);
    /* The end makes it readable, and it stays so. */
    takes_all();
    TELLS(freeze_queue_pool_take(&pool, 0) == NULL && !shows(), true);
    acts(NULL, NULL, NULL);
    before_lock = NULL;
    after_unlock = NULL;
    IS(freeze_queue_pool_end(&pool, &soon), ERR_TIMED_OUT);
    TELLS(shows(), true);
    acts(none_is_there_to_poll, gives_first, gives_second);
    const int event = freeze_queue_pool_event(&pool);
    IS(freeze_queue_pool_end(&pool, NULL), OK);
    TELLS(have_acted() && is_readable(event), true);
    TELLS(freeze_queue_pool_event(&pool), (uint64_t)-1);
    IS(freeze_queue_pool_open_event(&pool), ERR_CLOSED);
    IS(freeze_queue_pool_destroy(&pool), OK);
    TELLS(fcntl(event, F_GETFD), (uint64_t)-1);
    IS(freeze_queue_pool_fill(&pool, &waits, 2), OK);
    TELLS(freeze_queue_pool_event(&pool), (uint64_t)-1);
}
#else
static void a_pool_has_an_event(void) {}
#endif

/* Each tag, and each word, has 128 bytes for itself, wherever the pool lies. */
static void tags_are_aligned(void)
{
    for (int i = 0; i < 8; i++) {
        freeze_queue_pool *made = freeze_queue_pool_new();
        TELLS(made != NULL && freeze_queue_pool_state_of(made)->count == 0, true);
        IS(freeze_queue_pool_empty(made), ERR_CLOSED);
        IS(freeze_queue_pool_fill(made, &waits, 2), OK);
        const freeze_queue_pooled *tags = freeze_queue_pool_state_of(made)->tags;
        for (int place = 0; place < 2; place++)
            TELLS((uintptr_t)&tags[place] % 128 == 0 && (uintptr_t)tags[place].word % 128 == 0, true);
        TELLS(tags[0].word != tags[1].word, true);
        IS(freeze_queue_pool_empty(made), OK);
        IS(freeze_queue_pool_free(made), OK);
    }
}

int main(void)
{
    const freeze_queue_limits limits = {8, 0, 0, 1};
    freeze_queue_final last;
    if (freeze_queue_new(&freezer, &limits, 1, 2) || freeze_queue_waits_init(&waits, &freezer) ||
        freeze_queue_pool_fill(&pool, &waits, 2))
        return 1;
    locks = 0;
    takes_all();
    gives_first();
    gives_second();
    TELLS(locks, 0); /* nobody waited */
    takes_all();
    acts(wakes_by_itself, gives_and_takes, gives_second);
    takes_what_is_given(NULL);
    takes_all();
    acts(second_waits, gives_first, gives_second); /* each of two is woken by one */
    takes_what_is_given(NULL);
    takes_all();
    acts(NULL, NULL, NULL);
    before_lock = gives_first; /* before it waits: it looks, and needn't sleep */
    takes_what_is_given(NULL);
    takes_all();
    TELLS(freeze_queue_pool_take(&pool, 0) == NULL, true);
    TELLS(takes_waiting(&pool, 0, &soon) == NULL, true); /* the deadline passes */
    TELLS(IN_POOL->waiting, 0);
    acts(gives_first_untold, NULL, NULL); /* and once more, with a tag there by then */
    takes_what_is_given(&soon);
    giving_takes_no_lock_again();
    a_second_giving_is_told();
    giving_takes_no_lock_again();
    tags_in_flight_are_listed();
    the_pool_ends();
    the_end_looks_after_its_deadline();
    a_pool_has_an_event();
    IS(freeze_queue_pool_empty(&pool), OK);
    tags_are_aligned();
    IS(freeze_queue_waits_end(&waits, &last, NULL), OK);
    each_tag_that_is_out_is_seen(&limits);
    return told_at_the_end();
}
