/* The functions that are taken out of the block layer, and names for those that are static or differ between versions. */
#include "queue_taken.h"
#include "queue.h"

void queue_thaw(struct request_queue *q) { queue_unfreeze(q); }
void queue_start_drain(struct request_queue *q) { (void)blk_queue_start_drain(q); }
void queue_release(struct percpu_ref *ref) { blk_queue_usage_counter_release(ref); }

unsigned queue_io_size(uint64_t start, struct queue_limits limits)
{
    struct bio bio = {.bi_iter = {start}};
    return get_max_io_size(&bio, &limits);
}
