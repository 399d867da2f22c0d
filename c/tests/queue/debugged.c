/* Misuse that a program with FREEZE_QUEUE_DEBUG is told of, whether it also has FREEZE_QUEUE_INLINE or not: each call aborts in a child, with
 * its sentence. Right use goes on. */
#define _POSIX_C_SOURCE 200809L
#define FREEZE_QUEUE_DEBUG
#define FREEZE_QUEUE_INLINE
#include "freeze_queue_pool.h"
#include "../is.h"

#ifdef FREEZE_QUEUE_LANE_H
#error "with FREEZE_QUEUE_DEBUG tags enter and leave by calls of the library"
#endif

#include <pthread.h>
#include <signal.h>
#include <stdlib.h>
#include <string.h>
#include <sys/wait.h>
#include <unistd.h>

static freeze_queue queues[2];
static freeze_queue_waits waits[2];
static freeze_queue_pool pools[2];
static freeze_queue_tag tag; /* of the first queue */
static freeze_queue_tag *taken;
static uint32_t unused;

static void another_queues_tag_enters(void) { unused = freeze_queue_waits_enter(&waits[1], &tag, 0, NULL); }
static void another_queues_tag_tries(void) { unused = freeze_queue_waits_try_enter(&waits[1], &tag, 0); }
static void another_queues_tag_leaves(void)
{
    unused = freeze_queue_waits_enter(&waits[0], &tag, 0, NULL);
    unused = freeze_queue_waits_leave(&waits[1], &tag, 0);
}
static void never_initialized(void)
{
    freeze_queue_waits none;
    memset(&none, 0, sizeof none);
    unused = freeze_queue_waits_freeze(&none, NULL);
}
static void moved(void)
{
    freeze_queue_waits copy;
    memcpy(&copy, &waits[0], sizeof copy);
    unused = freeze_queue_waits_thaw(&copy);
}
static void destroyed(void)
{
    freeze_queue_waits_destroy(&waits[0]);
    freeze_queue_waits_is_drained(&waits[0]);
}
static void ended(void)
{
    freeze_queue_final last;
    unused = freeze_queue_waits_end(&waits[1], &last, NULL);
    unused = freeze_queue_waits_mark_dying(&waits[1]);
}
static void given_to_another_pool(void) { freeze_queue_pool_give(&pools[1], taken); }
static freeze_queue_tag *volatile of_no_pool = &tag; /* a compiler that sees which tells it too */
static void given_to_no_pool(void) { freeze_queue_pool_give(&pools[0], of_no_pool); }
static void given_to_an_empty_pool(void)
{
    static freeze_queue_pool empty;
    freeze_queue_pool_give(&empty, taken);
}
static void given_while_entered(void)
{
    unused = freeze_queue_waits_enter(&waits[0], taken, 0, NULL);
    freeze_queue_pool_give(&pools[0], taken);
}
static void locked_twice(void)
{
    freeze_queue_locks(&freeze_queue_waits_state_of(&waits[0])->guard);
    freeze_queue_locks(&freeze_queue_waits_state_of(&waits[0])->guard);
}

/* Right use, of all kinds of calls, tells nothing. */
static void right(void)
{
    const freeze_queue_limits limits = {.hardware = 64, .max = 8};
    unused |= freeze_queue_waits_enter(&waits[0], &tag, 0, NULL) | freeze_queue_waits_leave(&waits[0], &tag, 0);
    unused |= freeze_queue_waits_change(&waits[0], &limits, NULL) | freeze_queue_waits_enter(&waits[0], taken, 0, NULL);
    unused |= freeze_queue_waits_leave(&waits[0], taken, 0) | freeze_queue_pool_give(&pools[0], taken);
    unused |= freeze_queue_waits_mark_dying(&waits[0]) | freeze_queue_pool_end(&pools[0], NULL);
    _Exit(unused ? 2 : 0);
}

/* What a child that misuses writes to its standard error, and whether it has aborted. */
static bool aborts_with(void (*misuses)(void), const char *sentence)
{
    char said[200] = {0};
    FILE *file = tmpfile();
    int status = 0;
    pid_t child = file ? fork() : -1;
    if (child == 0) {
        dup2(fileno(file), 2);
        misuses();
        _Exit(0);
    }
    if (child < 0 || waitpid(child, &status, 0) != child)
        exit(1);
    rewind(file);
    if (fgets(said, sizeof said, file) == NULL)
        said[0] = 0;
    fclose(file);
    if (sentence == NULL)
        return WIFEXITED(status) && WEXITSTATUS(status) == 0 && said[0] == 0;
    return WIFSIGNALED(status) && WTERMSIG(status) == SIGABRT && strstr(said, sentence) != NULL;
}

int main(void)
{
    static const char other[] = "freeze_queue: a tag with the waits of another queue", dead[] = "freeze_queue: a call of waits that aren't",
                      foreign[] = "freeze_queue: a tag is given to a pool that isn't its own";
    const freeze_queue_limits limits = {.hardware = 64};
    for (int i = 0; i < 2; i++)
        if (freeze_queue_new(&queues[i], &limits, 1, 3) || freeze_queue_waits_init(&waits[i], &queues[i]))
            return 1;
    if (freeze_queue_waits_next_tag(&waits[0], &tag) || freeze_queue_pool_fill(&pools[0], &waits[0], 2) ||
        freeze_queue_pool_fill(&pools[1], &waits[0], 0) != FREEZE_QUEUE_ERR_BAD_SIZE || (taken = freeze_queue_pool_take(&pools[0], 0)) == NULL)
        return 1;
    TELLS(aborts_with(another_queues_tag_enters, other), true);
    TELLS(aborts_with(another_queues_tag_tries, other), true);
    TELLS(aborts_with(another_queues_tag_leaves, other), true);
    TELLS(aborts_with(never_initialized, dead), true);
    TELLS(aborts_with(moved, dead), true);
    TELLS(aborts_with(destroyed, dead), true);
    TELLS(aborts_with(ended, dead), true);
    TELLS(aborts_with(given_to_another_pool, foreign), true);
    TELLS(aborts_with(given_to_no_pool, foreign), true);
    TELLS(aborts_with(given_to_an_empty_pool, foreign), true);
    TELLS(aborts_with(given_while_entered, "freeze_queue: a tag is given back to its pool while it is entered"), true);
    TELLS(aborts_with(locked_twice, "freeze_queue: Resource deadlock avoided"), true);
    TELLS(aborts_with(right, NULL), true);
    printf("%s\n", failures ? "FAILED" : "each is told");
    return failures != 0;
}
