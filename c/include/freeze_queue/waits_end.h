/* Tags, a dying queue, its end, and events: bodies of calls of freeze_queue_waits.h, which includes this file. */
#ifndef FREEZE_QUEUE_WAITS_H
#error "include freeze_queue_waits.h"
#endif
#ifndef FREEZE_QUEUE_WAITS_END_H
#define FREEZE_QUEUE_WAITS_END_H

/* ---- Tags ---- */

FREEZE_QUEUE_CALL freeze_queue_answer freeze_queue_waits_next_tag(freeze_queue_waits *of, freeze_queue_tag *tag)
{
    freeze_queue_waits_state *waits = freeze_queue_waits_state_of(of);
    freeze_queue_waits_lock(waits);
    freeze_queue_answer answer = freeze_queue_next_tag(waits->queue, tag);
    freeze_queue_waits_unlock(waits);
    return answer;
}
FREEZE_QUEUE_CALL freeze_queue_answer freeze_queue_waits_give_tag_back(freeze_queue_waits *of, freeze_queue_tag *tag)
{
    freeze_queue_waits_state *waits = freeze_queue_waits_state_of(of);
    freeze_queue_waits_lock(waits);
    freeze_queue_answer answer = freeze_queue_give_tag_back(waits->queue, tag);
    if (!tag->is_open)
        tag->reserved.words[1] = NULL; /* the note of its bias, which another queue's waits could take for theirs */
    if (answer == FREEZE_QUEUE_LAST) {
        freeze_queue_waits_show(waits);
        answer = FREEZE_QUEUE_OK;
    }
    freeze_queue_waits_wakes_ender(waits);
    freeze_queue_waits_unlock(waits);
    return answer;
}

/* ---- Internal: the mark, and the removal ---- */

/* Marks the queue dying, unless it is dying already. Call it under the lock. */
static inline freeze_queue_answer freeze_queue_waits_die(freeze_queue_waits_state *waits)
{
    uint32_t depth;
    if (waits->is_dying)
        return FREEZE_QUEUE_OK;
    freeze_queue_answer answer = freeze_queue_waits_starts(waits, &depth);
    if (freeze_queue_is_refused(answer))
        return answer;
    __atomic_store_n(&waits->is_dying, 1, __ATOMIC_SEQ_CST);
    freeze_queue_waits_show(waits);
    return FREEZE_QUEUE_OK;
}

/* Waits until each tag is back and no call is inside, and removes the queue. Call it under the lock. */
static inline freeze_queue_answer freeze_queue_waits_removes(freeze_queue_waits_state *waits, freeze_queue_final *last,
                                                             const struct timespec *deadline)
{
    freeze_queue_answer answer;
    for (bool in_time = true;;) {
        freeze_queue_waiter own = freeze_queue_new_waiter();
        answer = waits->inside > 0 ? FREEZE_QUEUE_ERR_TAGS_OUT : freeze_queue_remove(waits->queue, last);
        if (answer != FREEZE_QUEUE_ERR_TAGS_OUT || !in_time)
            break;
        waits->ender = &own;
        freeze_queue_waits_unlock(waits);
        in_time = freeze_queue_waits_sleeps(waits, &own, deadline);
        freeze_queue_waits_lock(waits);
        waits->ender = NULL;
    }
    return answer == FREEZE_QUEUE_ERR_TAGS_OUT ? FREEZE_QUEUE_ERR_TIMED_OUT : answer;
}

/* ---- A dying queue, and its end ---- */

FREEZE_QUEUE_CALL freeze_queue_answer freeze_queue_waits_mark_dying(freeze_queue_waits *of)
{
    freeze_queue_waits_state *waits = freeze_queue_waits_state_of(of);
    freeze_queue_waits_lock(waits);
    freeze_queue_answer answer = freeze_queue_waits_die(waits);
    freeze_queue_waits_unlock(waits);
    return answer;
}

FREEZE_QUEUE_CALL freeze_queue_answer freeze_queue_waits_end(freeze_queue_waits *of, freeze_queue_final *last,
                                                             const struct timespec *deadline)
{
    freeze_queue_waits_state *waits = (freeze_queue_waits_state *)(void *)of;
    if (!freeze_queue_is_deadline(deadline))
        return FREEZE_QUEUE_ERR_BAD_DEADLINE;
    if (waits->self != of)
        return FREEZE_QUEUE_ERR_CLOSED;
    freeze_queue_waits_lock(waits);
    freeze_queue_answer answer = freeze_queue_waits_is_in_update(waits) ? FREEZE_QUEUE_ERR_IN_UPDATE
                                 : waits->is_ending                     ? FREEZE_QUEUE_ERR_IN_USE
                                                                        : freeze_queue_waits_die(waits);
    if (answer == FREEZE_QUEUE_OK) {
        waits->is_ending = true;
        answer = freeze_queue_waits_removes(waits, last, deadline);
        waits->is_ending = answer == FREEZE_QUEUE_OK;
    }
    freeze_queue_waits_unlock(waits);
    if (answer != FREEZE_QUEUE_OK)
        return answer;
    freeze_queue_waits_lock(waits); /* behind each call that stood in line */
    freeze_queue_waits_goes(waits);
    return answer;
}

#if defined(__linux__)
/* ---- Events (Linux) ---- */

FREEZE_QUEUE_CALL freeze_queue_answer freeze_queue_waits_open_events(freeze_queue_waits *of)
{
    freeze_queue_waits_state *waits = freeze_queue_waits_state_of(of);
    if (waits->live_event >= 0)
        return FREEZE_QUEUE_ERR_OPEN;
    int drained = eventfd(0, EFD_NONBLOCK | EFD_CLOEXEC), live = eventfd(0, EFD_NONBLOCK | EFD_CLOEXEC);
    if (drained < 0 || live < 0) {
        int refused = errno;
        if (drained >= 0)
            close(drained);
        if (live >= 0)
            close(live);
        errno = refused;
        return FREEZE_QUEUE_ERR_NO_EVENT;
    }
    waits->drained_event = drained;
    waits->live_event = live;
    waits->events_of = getpid();
    waits->raised = waits->wanted = 0;
    freeze_queue_waits_notify(of);
    return FREEZE_QUEUE_OK;
}

FREEZE_QUEUE_CALL int freeze_queue_waits_live_event(freeze_queue_waits *of)
{
    return freeze_queue_waits_state_of(of)->live_event;
}

FREEZE_QUEUE_CALL int freeze_queue_waits_drained_event(freeze_queue_waits *of)
{
    return freeze_queue_waits_state_of(of)->drained_event;
}
#endif

#endif
