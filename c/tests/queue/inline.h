/* Included before the headers of the queue by tests that look into waits and pools: their bodies are in place. */
#ifndef INLINE_H
#define INLINE_H
#ifndef FREEZE_QUEUE_INLINE
#define FREEZE_QUEUE_INLINE
#endif
#define IN_WAITS freeze_queue_waits_state_of(&waits)
#define IN_POOL freeze_queue_pool_state_of(&pool)
#endif
