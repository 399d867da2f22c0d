/* The functions that are taken out of the block layer, as their driver calls them. */
#ifndef QUEUE_TAKEN_H
#define QUEUE_TAKEN_H
#include "queue_shims.h"

int blk_queue_enter(struct request_queue *q, blk_mq_req_flags_t flags);
void blk_queue_exit(struct request_queue *q);
void blk_freeze_queue_start(struct request_queue *q);
void blk_mq_freeze_queue_wait(struct request_queue *q);
void queue_thaw(struct request_queue *q);
void queue_start_drain(struct request_queue *q);
void queue_release(struct percpu_ref *ref);
unsigned queue_io_size(uint64_t start, struct queue_limits limits);
#endif
