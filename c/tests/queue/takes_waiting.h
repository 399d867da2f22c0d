/* Included behind freeze_queue_pool.h: takes a tag of a pool, and waits for one; NULL if that is refused. */
#ifndef TAKES_WAITING_H
#define TAKES_WAITING_H
static inline freeze_queue_tag *takes_waiting(freeze_queue_pool *of, uint32_t hint, const struct timespec *deadline)
{
    freeze_queue_tag *tag = NULL;
    return freeze_queue_pool_take_waiting(of, hint, deadline, &tag) == FREEZE_QUEUE_OK ? tag : NULL;
}
#endif
