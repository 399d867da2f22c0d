/* A process that is forked: what its child does with its copy of a queue and its waits leaves the parent's events as they
 * are, and no program that the child starts inherits them. */
#define _GNU_SOURCE
#include "freeze_queue_waits.h"
#include "readable.h"

#include <fcntl.h>
#include <stdio.h>
#include <sys/wait.h>

/* The child freezes, thaws, dies and destroys its copies. */
static int child(freeze_queue_waits *waits)
{
    if (freeze_queue_waits_freeze(waits, NULL) || freeze_queue_waits_thaw(waits) != FREEZE_QUEUE_LIVE_AGAIN ||
        freeze_queue_waits_begin_freeze(waits) != FREEZE_QUEUE_DRAINED || freeze_queue_waits_mark_dying(waits))
        return 1;
    freeze_queue_waits_destroy(waits);
    return 0;
}

int main(void)
{
    const freeze_queue_limits limits = {.hardware = 64};
    freeze_queue freezer = {0};
    freeze_queue_waits waits;
    int status = 1;
    if (freeze_queue_new(&freezer, &limits, 1, 1) || freeze_queue_waits_init(&waits, &freezer) ||
        freeze_queue_waits_open_events(&waits))
        return 2;
    bool stays = fcntl(freeze_queue_waits_live_event(&waits), F_GETFD) == FD_CLOEXEC && fcntl(freeze_queue_waits_drained_event(&waits), F_GETFD) == FD_CLOEXEC;
    pid_t forked = fork();
    if (forked == 0)
        _exit(child(&waits));
    bool went_well = waitpid(forked, &status, 0) == forked && status == 0;
    bool as_before = is_readable(freeze_queue_waits_live_event(&waits)) && !is_readable(freeze_queue_waits_drained_event(&waits));
    bool goes_on = freeze_queue_waits_freeze(&waits, NULL) == FREEZE_QUEUE_OK && is_readable(freeze_queue_waits_drained_event(&waits)) &&
                   !is_readable(freeze_queue_waits_live_event(&waits));
    freeze_queue_waits_destroy(&waits);
    freeze_queue_free(&freezer);
    bool all = stays && went_well && as_before && goes_on;
    printf("%s\n", all ? "the parent's events stay" : "FAILED");
    return !all;
}
