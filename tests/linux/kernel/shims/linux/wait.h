/* A caller is on the queue before it asks for its condition, so no wake that comes later is lost. */
#ifndef SHIM_WAIT
#define SHIM_WAIT
#include <linux/sched.h>
#define DECLARE_WAIT_QUEUE_HEAD(q) wait_queue_head_t q SHIM_SHARED
#define wait_event(q, is_so)                                                                                               \
    do {                                                                                                                   \
        for (shim_prepare(&(q)); !(is_so); shim_prepare(&(q)))                                                             \
            shim_sleep(&(q));                                                                                              \
        shim_finish(&(q));                                                                                                 \
    } while (0)
#define wait_event_lock_irq(q, is_so, l)                                                                                   \
    do {                                                                                                                   \
        for (shim_prepare(&(q)); !(is_so); shim_prepare(&(q))) {                                                           \
            shim_unlock(&(l));                                                                                             \
            shim_sleep(&(q));                                                                                              \
            shim_lock(&(l));                                                                                               \
        }                                                                                                                  \
        shim_finish(&(q));                                                                                                 \
    } while (0)
#define wake_up_all(q) shim_wake_all(q)
#endif
