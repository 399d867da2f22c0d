/* Spinlocks: one holder; its interrupts are off, so no interrupt of its processor comes between. */
#ifndef SHIM_SCHED
#define SHIM_SCHED
#include <linux/types.h>
#define DEFINE_SPINLOCK(l) spinlock_t l SHIM_SHARED
#define spin_lock_irqsave(l, flags) ((flags) = 0, shim_lock(l))
#define spin_unlock_irqrestore(l, flags) ((void)(flags), shim_unlock(l))
#define spin_lock_irq(l) shim_lock(l)
#define spin_unlock_irq(l) shim_unlock(l)
#define lockdep_assert_held(l) ((void)shim_warn(!shim_is_held(l), "a lock isn't held"))
#endif
