/* What a caller does who has read the headers and nothing else, in the C that C99, C11, C17 and C++ have in common: each
 * answer by its name, with what it says; a change of the limits as the first page shows it, with a lock of the caller's
 * own; and by two threads at once over the waits, while others submit. Words: changes of each thread. */
#ifndef _POSIX_C_SOURCE
#define _POSIX_C_SOURCE 200809L
#endif
#include "freeze_queue_pool.h"
#include "../is.h"
#include "freeze_queue_waits.h"

#include <ctype.h>
#include <pthread.h>
#include <stdio.h>
#include <stdlib.h>
#include <string.h>

#define IS(call, want) is(#call, call, FREEZE_QUEUE_##want, __LINE__)

/* ---- Answers ---- */

/* Each name of the header, its number, which programs keep, and words of what it says, which tell it from each other. */
#define NAMED(name, number, words) {#name, FREEZE_QUEUE_##name, number, words}
static const struct { const char *name; freeze_queue_answer is; uint32_t number; const char *words; } answers[] = {
    NAMED(OK, 0, "done"), NAMED(LAST, 1, "done, and"), NAMED(NOT_ENTERED, 2, "isn't entered"),
    NAMED(NOT_ENTERED_LAST, 3, "isn't entered, and"), NAMED(DRAINED, 4, "drained already"),
    NAMED(LIVE_AGAIN, 5, "live again"), NAMED(ERR_DEPTH_FULL, 17, "1000"), NAMED(ERR_NOT_FROZEN, 18, "isn't frozen"),
    NAMED(ERR_NOT_DRAINED, 19, "isn't drained"), NAMED(ERR_TAGS_OUT, 20, "aren't given back"),
    NAMED(ERR_WORN_OUT, 21, "2^40"), NAMED(ERR_ABOVE_HARDWARE, 25, "more sectors than"),
    NAMED(ERR_CHUNK_TOO_LARGE, 26, "chunk"), NAMED(ERR_HARDWARE_RANGE, 27, "outside 1 to 65535"),
    NAMED(ERR_BAD_PHYSICAL, 28, "power of two"), NAMED(ERR_OTHER_HARDWARE, 29, "isn't the queue's"),
    NAMED(ERR_TIMED_OUT, 30, "deadline"), NAMED(ERR_DYING, 31, "dying"),
    NAMED(ERR_CLOSED, 32, "closed"), NAMED(ERR_OPEN, 33, "is open"),
    NAMED(ERR_BAD_SLOT, 34, "no such slot"), NAMED(ERR_BAD_SIZE, 35, "slots or tags"), NAMED(ERR_NO_MEMORY, 36, "memory"),
    NAMED(ERR_IN_USE, 37, "has waits"), NAMED(ERR_OTHER_QUEUE, 38, "another queue"), NAMED(ERR_NO_TAG, 39, "was given out"),
    NAMED(ERR_ALREADY_ENTERED, 48, "has entered"), NAMED(ERR_TAG_NOT_ENTERED, 49, "hasn't entered"),
    NAMED(ERR_BAD_MODE, 50, "no such mode"), NAMED(ERR_BAD_RANGE, 51, "2^33"),
    NAMED(ERR_TAG_NOT_OUT, 52, "back already"), NAMED(ERR_BAD_DEADLINE, 53, "nanoseconds"),
    NAMED(ERR_BAD_RETURN, 54, "1 to 15"), NAMED(ERR_IN_UPDATE, 55, "waits for the update"),
    NAMED(ERR_NO_EVENT, 56, "descriptor"),
};

/* A text fits into a line of a log, behind a colon. */
static bool is_plain(const char *text)
{
    size_t length = strlen(text);
    for (size_t i = 0; i < length; i++)
        if (!isprint((unsigned char)text[i]))
            return false;
    return length > 0 && length < 80 && !isupper((unsigned char)text[0]) && text[length - 1] != '.';
}

static void answers_are_named(void)
{
    for (size_t i = 0; i < sizeof answers / sizeof answers[0]; i++) {
        const char *text = freeze_queue_text(answers[i].is);
        TELLS(answers[i].is, answers[i].number);
        TELLS(is_plain(text) && strstr(text, answers[i].words) != NULL, true);
        for (size_t j = 0; j < i; j++)
            TELLS(strstr(text, answers[j].words) && strstr(freeze_queue_text(answers[j].is), answers[i].words), false);
        TELLS(freeze_queue_is_refused(answers[i].is), i >= 6);
        TELLS(freeze_queue_is_misuse(answers[i].is), i >= 18);
    }
    TELLS(is_plain(freeze_queue_text((freeze_queue_answer)UINT32_MAX)) && is_plain(freeze_queue_text((freeze_queue_answer)6)), true);
}

/* ---- By the first page alone: the freezer under a lock of the caller's own ---- */

static freeze_queue freezer;
static freeze_queue_limits limits = {64, 8, 0, 1};
static pthread_mutex_t own = PTHREAD_MUTEX_INITIALIZER;
static pthread_cond_t told = PTHREAD_COND_INITIALIZER, live = PTHREAD_COND_INITIALIZER;
static long turns;
static bool over;

/* Each thread has a tag, and a slot of its number. */
static struct caller {
    freeze_queue_tag tag;
    pthread_t thread;
    uint32_t number;
    long wrong;
} callers[4];

static void wakes(pthread_cond_t *who)
{
    pthread_mutex_lock(&own);
    pthread_cond_broadcast(who);
    pthread_mutex_unlock(&own);
}

/* Enters, and sleeps while the queue is frozen. */
static uint32_t enters(struct caller *me)
{
    for (;;) {
        uint32_t depth = 1;
        freeze_queue_answer answer = freeze_queue_try_enter(&me->tag, me->number);
        if (freeze_queue_is_drained(answer))
            wakes(&told);
        if (answer != FREEZE_QUEUE_NOT_ENTERED && answer != FREEZE_QUEUE_NOT_ENTERED_LAST)
            return answer;
        pthread_mutex_lock(&own);
        while (freeze_queue_depth(&freezer, &depth) == FREEZE_QUEUE_OK && depth > 0)
            pthread_cond_wait(&live, &own);
        pthread_mutex_unlock(&own);
    }
}

/* A request of 100 sectors, whose pieces are of one setting: a chunk is four times the most of a piece. */
static void sends(struct caller *me)
{
    freeze_queue_limits mine;
    uint32_t piece = 0, count = 100;
    me->wrong += freeze_queue_limits_of(&me->tag, &mine) != FREEZE_QUEUE_OK;
    me->wrong += mine.chunk != 0 && mine.chunk != 4 * mine.max;
    for (uint64_t start = 7; count > 0; start += piece, count -= piece) {
        me->wrong += freeze_queue_first_piece(&mine, start, count, &piece) != FREEZE_QUEUE_OK;
        me->wrong += piece < 1 || piece > mine.max || (mine.chunk != 0 && start % mine.chunk + piece > mine.chunk);
    }
}

static void *submits(void *of)
{
    struct caller *me = (struct caller *)of;
    while (!__atomic_load_n(&over, __ATOMIC_RELAXED)) {
        me->wrong += enters(me) != FREEZE_QUEUE_OK;
        sends(me);
        freeze_queue_answer answer = freeze_queue_leave(&me->tag, me->number);
        me->wrong += freeze_queue_is_refused(answer);
        if (freeze_queue_is_drained(answer))
            wakes(&told);
    }
    return NULL;
}

/* As the first page has it, by the one who owns the freezer. */
static void changes(uint32_t max)
{
    freeze_queue_limits next = limits;
    uint32_t depth;
    next.max = max;
    next.chunk = 4 * max;
    pthread_mutex_lock(&own);
    uint32_t refused = FREEZE_QUEUE_ERR_CLOSED, answer = freeze_queue_start_freeze(&freezer, &depth);
    if (answer == FREEZE_QUEUE_OK)
        while (!freeze_queue_poll_drained(&freezer))
            pthread_cond_wait(&told, &own);
    if (answer < 16) {
        refused = freeze_queue_set(&freezer, &next);
        answer = freeze_queue_thaw(&freezer, &depth);
    }
    if (answer == FREEZE_QUEUE_LIVE_AGAIN)
        pthread_cond_broadcast(&live);
    pthread_mutex_unlock(&own);
    TELLS(refused, FREEZE_QUEUE_OK);
    TELLS(answer, FREEZE_QUEUE_LIVE_AGAIN);
}

static void begin(struct caller *me, void *(*act)(void *))
{
    me->number = (uint32_t)(me - callers);
    if (pthread_create(&me->thread, NULL, act, me))
        exit(2);
}

static void end(struct caller *me)
{
    pthread_join(me->thread, NULL);
    TELLS(me->wrong, 0);
}

static void by_the_first_page(void)
{
    for (int i = 0; i < 3; i++)
        begin(&callers[i], submits);
    for (long i = 0; i < turns; i++)
        changes(1 + (uint32_t)i % 64);
    __atomic_store_n(&over, true, __ATOMIC_RELAXED);
    for (int i = 0; i < 3; i++)
        end(&callers[i]);
}

/* ---- Over the waits: two threads freeze at once, each under its own lock, while two submit ---- */

static freeze_queue_waits waits;

static void *submits_and_waits(void *of)
{
    struct caller *me = (struct caller *)of;
    while (!__atomic_load_n(&over, __ATOMIC_RELAXED)) {
        struct timespec soon = freeze_queue_deadline(50000);
        freeze_queue_answer answer = freeze_queue_waits_enter(&waits, &me->tag, me->number, me->number ? NULL : &soon);
        if (answer == FREEZE_QUEUE_ERR_TIMED_OUT && me->number == 0)
            continue;
        me->wrong += answer != FREEZE_QUEUE_OK;
        sends(me);
        me->wrong += freeze_queue_waits_leave(&waits, &me->tag, me->number) != FREEZE_QUEUE_OK;
    }
    return NULL;
}

/* A lock of the caller's own is held around each call: those of the waits come within it, and never the other way. A setting
 * that is made in one's own freeze stays until that is thawed. */
static void *freezes_and_waits(void *of)
{
    struct caller *me = (struct caller *)of;
    static pthread_mutex_t each[4] = {PTHREAD_MUTEX_INITIALIZER, PTHREAD_MUTEX_INITIALIZER, PTHREAD_MUTEX_INITIALIZER,
                                      PTHREAD_MUTEX_INITIALIZER};
    for (long i = 0; i < turns; i++) {
        freeze_queue_limits next = limits;
        struct timespec soon = freeze_queue_deadline(i % 4 ? UINT64_MAX : 1000);
        next.max = 1 + (uint32_t)i % 64;
        next.chunk = 4 * next.max;
        pthread_mutex_lock(&each[me->number]);
        freeze_queue_answer answer = freeze_queue_waits_freeze(&waits, i % 2 ? NULL : &soon);
        if (answer == FREEZE_QUEUE_OK) {
            me->wrong += !freeze_queue_waits_is_drained(&waits);
            me->wrong += freeze_queue_waits_set(&waits, &next) != FREEZE_QUEUE_OK;
            answer = freeze_queue_waits_thaw(&waits);
            me->wrong += answer != FREEZE_QUEUE_OK && answer != FREEZE_QUEUE_LIVE_AGAIN;
        } else
            me->wrong += answer != FREEZE_QUEUE_ERR_TIMED_OUT || i % 4 != 0;
        pthread_mutex_unlock(&each[me->number]);
    }
    return NULL;
}

static void over_the_waits(void)
{
    struct timespec soon = freeze_queue_deadline(1000000), past = soon;
    uint32_t depth = 9;
    past.tv_sec--;
    over = false;
    TELLS(freeze_queue_waits_init(&waits, &freezer), 0);
    for (int i = 0; i < 4; i++)
        begin(&callers[i], i < 2 ? submits_and_waits : freezes_and_waits);
    end(&callers[2]);
    end(&callers[3]);
    __atomic_store_n(&over, true, __ATOMIC_RELAXED);
    end(&callers[0]);
    end(&callers[1]);
    IS(freeze_queue_waits_depth(&waits, &depth), OK);
    TELLS(depth, 0);
    /* deadlines that pass, and that don't since nothing is waited for */
    IS(freeze_queue_waits_enter(&waits, &callers[0].tag, 0, &past), OK);
    IS(freeze_queue_waits_freeze(&waits, &soon), ERR_TIMED_OUT);
    IS(freeze_queue_waits_change(&waits, &limits, &past), ERR_TIMED_OUT);
    IS(freeze_queue_waits_leave(&waits, &callers[0].tag, 0), OK);
    IS(freeze_queue_waits_change(&waits, &limits, &past), OK);
    freeze_queue_waits_destroy(&waits);
}

int main(int argc, char **argv)
{
    freeze_queue_final last;
    turns = argc > 1 ? atol(argv[1]) : 1000;
    answers_are_named();
    IS(freeze_queue_new(&freezer, &limits, 4, 4), OK);
    for (int i = 0; i < 4; i++)
        IS(freeze_queue_next_tag(&freezer, &callers[i].tag), OK);
    by_the_first_page();
    over_the_waits();
    for (int i = 0; i < 4; i++)
        IS(freeze_queue_give_tag_back(&freezer, &callers[i].tag), OK);
    IS(freeze_queue_remove(&freezer, &last), OK);
    TELLS(last.limits.max, 8);
    printf("%s\n", failures ? "FAILED" : "as the headers say");
    return failures != 0;
}
