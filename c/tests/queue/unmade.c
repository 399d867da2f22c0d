/* Each thing that waits and a pool are made of is refused in turn: the call is refused, and what was made before is
 * ended. Each condition looks at CLOCK_MONOTONIC. */
#define _POSIX_C_SOURCE 200809L
#include "inline.h"
#include "freeze_queue.h"
#include "readable.h"

#include <errno.h>
#include <fcntl.h>
#include <pthread.h>
#include <stdio.h>
#include <stdlib.h>
#include <sys/eventfd.h>
#include <time.h>
#include <unistd.h>

static int allowed = 1000; /* how many are made before one is refused */
static int made;           /* and not ended */
static int monotonic;      /* attributes that were set to that clock */
static int events_before_0 = -1; /* how many events are opened before the one that gets the number 0 */

/* Makes one more, or refuses it. */
static int makes(int refusal)
{
    if (allowed-- == 0)
        return refusal;
    made++;
    return 0;
}

static int ends(int done)
{
    made--;
    return done;
}

static int sets_clock(pthread_condattr_t *attributes, clockid_t clock)
{
    if (allowed-- == 0)
        return EINVAL;
    monotonic += clock == CLOCK_MONOTONIC;
    return pthread_condattr_setclock(attributes, clock);
}

static int opens(unsigned int count, int flags)
{
    if (makes(EMFILE) != 0) {
        errno = EMFILE;
        return -1;
    }
    int event = eventfd(count, flags);
    if (events_before_0-- != 0)
        return event;
    return dup2(event, 0) == 0 && fcntl(0, F_SETFD, FD_CLOEXEC) == 0 && close(event) == 0 ? 0 : -1;
}

static int takes_block(void **at, size_t alignment, size_t size)
{
    return makes(ENOMEM) ? ENOMEM : posix_memalign(at, alignment, size);
}

static void *takes_memory(size_t count, size_t size) { return makes(ENOMEM) ? NULL : calloc(count, size); }

static void lets_go(void *at)
{
    ends(0);
    free(at);
}

/* Whether an event isn't inherited by another program, and whether a read of it waits. */
static bool stays_here(int event) { return (fcntl(event, F_GETFD) & FD_CLOEXEC) != 0; }
static bool never_waits(int event) { return (fcntl(event, F_GETFL) & O_NONBLOCK) != 0; }

#define pthread_mutex_init(lock, with) (makes(EAGAIN) ? EAGAIN : pthread_mutex_init(lock, with))
#define pthread_mutex_destroy(lock) ends(pthread_mutex_destroy(lock))
#define pthread_condattr_init(with) (makes(ENOMEM) ? ENOMEM : pthread_condattr_init(with))
#define pthread_condattr_destroy(with) ends(pthread_condattr_destroy(with))
#define pthread_condattr_setclock sets_clock
#define pthread_cond_init(on, with) (makes(EBUSY) ? EBUSY : pthread_cond_init(on, with))
#define pthread_cond_destroy(on) ends(pthread_cond_destroy(on))
#define eventfd opens
#define close(event) ends(close(event))
#define posix_memalign takes_block
#define calloc takes_memory
#define free lets_go
#include "freeze_queue_pool.h"

static int failures;

static void is(const char *what, int64_t value, int64_t want, int line)
{
    if (value == want)
        return;
    fprintf(stderr, "line %d: %s is %ld, not %ld\n", line, what, (long)value, (long)want);
    failures++;
}

#define TELLS(value, want) is(#value, value, want, __LINE__)

static freeze_queue freezer;
static freeze_queue_waits waits;
static freeze_queue_pool pool;

/* What waits are made of, in any order: a mutex, and a condition of three steps. */
static void waits_are_made(void)
{
    freeze_queue_final last;
    for (int allow = 0; allow < 4; allow++) {
        allowed = allow;
        TELLS(freeze_queue_waits_init(&waits, &freezer), FREEZE_QUEUE_ERR_NO_MEMORY);
        TELLS(made, 0);
        TELLS(allowed, -1);
        TELLS(freeze_queue_waits_destroy(&waits), FREEZE_QUEUE_ERR_CLOSED);
        TELLS(freeze_queue_waits_end(&waits, &last, NULL), FREEZE_QUEUE_ERR_CLOSED);
    }
    allowed = 4;
    monotonic = 0;
    TELLS(freeze_queue_waits_init(&waits, &freezer), 0);
    TELLS(allowed, 0);
    TELLS(monotonic, 1);
    TELLS(made, 2);
}

/* Waits that are allocated: one more that may be refused, and no pointer to what isn't made. */
static void waits_are_allocated(void)
{
    for (int allow = 0; allow < 5; allow++) {
        allowed = allow;
        TELLS(freeze_queue_waits_new(&freezer) == NULL, true);
        TELLS(made, 0);
    }
    allowed = 5;
    freeze_queue_waits *allocated = freeze_queue_waits_new(&freezer);
    TELLS(allocated != NULL && allowed == 0 && made == 3, true);
    if (allocated == NULL)
        return;
    TELLS(freeze_queue_waits_destroy(allocated), FREEZE_QUEUE_OK);
    TELLS(freeze_queue_waits_free(allocated), FREEZE_QUEUE_OK);
    TELLS(made, 0);
}

static void events_are_opened(void)
{
    for (allowed = 0; allowed < 2;) {
        int allow = allowed;
        TELLS(freeze_queue_waits_open_events(&waits), FREEZE_QUEUE_ERR_NO_EVENT);
        TELLS(errno, EMFILE);
        TELLS(made, 2);
        TELLS(freeze_queue_waits_live_event(&waits) == -1 && freeze_queue_waits_drained_event(&waits) == -1, true);
        allowed = allow + 1;
    }
    TELLS(freeze_queue_waits_open_events(&waits), 0);
    TELLS(freeze_queue_waits_live_event(&waits) >= 0 && freeze_queue_waits_drained_event(&waits) >= 0, true);
    TELLS(stays_here(freeze_queue_waits_live_event(&waits)) && stays_here(freeze_queue_waits_drained_event(&waits)), true);
    TELLS(never_waits(freeze_queue_waits_live_event(&waits)) && never_waits(freeze_queue_waits_drained_event(&waits)), true);
    TELLS(made, 4);
    TELLS(freeze_queue_waits_open_events(&waits), FREEZE_QUEUE_ERR_OPEN);
    TELLS(made, 4);
    freeze_queue_waits_destroy(&waits);
    TELLS(made, 0);
}

/* A call whose condition is refused waits on that of the waits. */
static void *freezes(void *answer)
{
    *(freeze_queue_answer *)answer = freeze_queue_waits_freeze(&waits, NULL);
    return NULL;
}
static void a_call_waits_without_its_condition(void)
{
    freeze_queue_tag tag = {0};
    freeze_queue_answer answer = FREEZE_QUEUE_ERR_CLOSED;
    pthread_t thread;
    allowed = 4;
    TELLS(freeze_queue_waits_init(&waits, &freezer) | freeze_queue_next_tag(&freezer, &tag), 0);
    TELLS(freeze_queue_waits_enter(&waits, &tag, 0, NULL), 0);
    TELLS(pthread_create(&thread, NULL, freezes, &answer), 0);
    while (__atomic_load_n(&allowed, __ATOMIC_SEQ_CST) == 0) {}
    nanosleep(&(const struct timespec){0, 1000000}, NULL); /* it may sleep by now */
    TELLS(freeze_queue_waits_leave(&waits, &tag, 0), 0);
    pthread_join(thread, NULL);
    TELLS(answer, FREEZE_QUEUE_OK);
    TELLS(freeze_queue_waits_thaw(&waits), FREEZE_QUEUE_LIVE_AGAIN);
    TELLS(freeze_queue_give_tag_back(&freezer, &tag) | freeze_queue_waits_destroy(&waits), 0);
    TELLS(made, 0);
}

/* An event may have the number 0, where a program has no standard input. It is set and closed like any other. */
static void an_event_has_the_number_0(void)
{
    int input = fcntl(0, F_DUPFD_CLOEXEC, 3);
    for (int before = 0; before < 2; before++) {
        allowed = 6;
        events_before_0 = before;
        TELLS(freeze_queue_waits_init(&waits, &freezer), 0);
        TELLS(freeze_queue_waits_open_events(&waits), 0);
        TELLS(freeze_queue_waits_live_event(&waits) == 0 || freeze_queue_waits_drained_event(&waits) == 0, true);
        TELLS(is_readable(freeze_queue_waits_live_event(&waits)) && !is_readable(freeze_queue_waits_drained_event(&waits)), true);
        TELLS(freeze_queue_waits_begin_freeze(&waits), FREEZE_QUEUE_DRAINED);
        TELLS(!is_readable(freeze_queue_waits_live_event(&waits)) && is_readable(freeze_queue_waits_drained_event(&waits)), true);
        TELLS(freeze_queue_waits_thaw(&waits), FREEZE_QUEUE_LIVE_AGAIN);
        freeze_queue_waits_destroy(&waits);
        TELLS(made, 0);
        TELLS(fcntl(0, F_GETFD), -1);
        if (input >= 0)
            TELLS(dup2(input, 0), 0);
    }
}

static void a_pool_is_filled(void)
{
    freeze_queue_tag tag = {0};
    allowed = 4;
    TELLS(freeze_queue_waits_init(&waits, &freezer), FREEZE_QUEUE_OK);
    made = 0;
    for (int allow = 0; allow < 5; allow++) {
        allowed = allow;
        TELLS(freeze_queue_pool_fill(&pool, &waits, 2), FREEZE_QUEUE_ERR_NO_MEMORY);
        TELLS(made, 0);
        TELLS(IN_POOL->count, 0);
        for (int i = 0; i < 2; i++) { /* the queue has all tags back */
            TELLS(freeze_queue_next_tag(&freezer, &tag), FREEZE_QUEUE_OK);
            TELLS(freeze_queue_give_tag_back(&freezer, &tag), FREEZE_QUEUE_OK);
        }
    }
    allowed = 5;
    monotonic = 0;
    TELLS(freeze_queue_pool_fill(&pool, &waits, 2), FREEZE_QUEUE_OK);
    TELLS(allowed, 0);
    TELLS(monotonic, 1);
    TELLS(freeze_queue_pool_empty(&pool), FREEZE_QUEUE_OK);
    TELLS(made, 0);
    made = 2;
    TELLS(freeze_queue_waits_destroy(&waits), FREEZE_QUEUE_OK);
}

int main(void)
{
    const freeze_queue_limits limits = {8, 0, 0, 1};
    freeze_queue_final last;
    if (freeze_queue_new(&freezer, &limits, 1, 2))
        return 1;
    waits_are_allocated();
    waits_are_made();
    events_are_opened();
    an_event_has_the_number_0();
    a_call_waits_without_its_condition();
    a_pool_is_filled();
    TELLS(freeze_queue_remove(&freezer, &last), FREEZE_QUEUE_OK);
    printf("%s\n", failures ? "FAILED" : "nothing is left");
    return failures != 0;
}
