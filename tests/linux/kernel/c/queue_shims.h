/* The names that the functions taken out of the block layer use, and of its structs only the fields that these
 * functions touch. Power management, lockdep and the hardware queues are left out. */
#ifndef QUEUE_SHIMS_H
#define QUEUE_SHIMS_H
#include <linux/gfp.h>
#include <linux/kernel.h>
#include <linux/percpu-refcount.h>
#include <linux/wait.h>

typedef uint64_t sector_t;
typedef unsigned blk_mq_req_flags_t, blk_opf_t;
enum { BLK_MQ_REQ_NOWAIT = 1, BLK_MQ_REQ_PM = 4, RPM_SUSPENDED = 2, SECTOR_SHIFT = 9, SECTOR_SIZE = 512 };
enum { REQ_OP_WRITE_ZEROES = 9, REQ_ATOMIC = 1 << 30 };
struct mutex { spinlock_t lock; };
struct queue_limits {
    unsigned max_sectors, chunk_sectors, physical_block_size, logical_block_size, max_write_zeroes_sectors;
    unsigned atomic_write_max_sectors, atomic_write_boundary_sectors;
};
struct bio { struct { sector_t bi_sector; } bi_iter; blk_opf_t bi_opf; };
struct request_queue {
    struct percpu_ref q_usage_counter;
    struct mutex mq_freeze_lock;
    int mq_freeze_depth;
    wait_queue_head_t mq_freeze_wq;
    struct queue_limits limits;
    bool is_dying;
};

#define mutex_lock(m) shim_lock(&(m)->lock)
#define mutex_unlock(m) shim_unlock(&(m)->lock)
#define min(a, b) ({ __typeof__(a) a_ = (a); __typeof__(b) b_ = (b); a_ < b_ ? a_ : b_; })
/* Divides n, and gives the remainder. */
#define sector_div(n, by) ({ unsigned rest_ = (n) % (by); (n) /= (by); rest_; })
#define is_power_of_2(n) ((n) && !((n) & ((n) - 1)))
#define bio_op(b) ((b)->bi_opf & 255)

#define queue_is_mq(q) ((void)(q), true)
#define blk_mq_run_hw_queues(q, is_async) ((void)(q))
#define blk_mq_wake_waiters(q) ((void)(q))
#define blk_queue_pm_only(q) ((void)(q), false)
#define queue_rpm_status(q) ((void)(q), 0)
#define blk_pm_resume_queue(pm, q) ((void)(pm), (void)(q), true)
#define blk_queue_dying(q) ((q)->is_dying)

/* From 6.12 on. */
struct task_struct;
#define current ((struct task_struct *)NULL)
#define rwsem_acquire_read(...) ((void)0)
#define rwsem_release(...) ((void)0)
#define blk_freeze_set_owner(q, owner) ((void)(q), (void)(owner), false)
#define blk_unfreeze_check_owner(q) ((void)(q), false)
#define blk_freeze_acquire_lock(...) ((void)0)
#define blk_unfreeze_release_lock(...) ((void)0)
#endif
