#include "ref_calls.h"
#include <linux/gfp.h>
#include <linux/kernel.h>
#include <linux/percpu-refcount.h>
#include <string.h>

size_t ref_size(void) { return sizeof(struct percpu_ref); }

bool ref_init(struct percpu_ref *ref, void (*release)(struct percpu_ref *), const char *start)
{
    unsigned flags = PERCPU_REF_ALLOW_REINIT;
    flags |= !strcmp(start, "dead") ? PERCPU_REF_INIT_DEAD : !strcmp(start, "atomic") ? PERCPU_REF_INIT_ATOMIC : 0;
    return percpu_ref_init(ref, release, flags, GFP_KERNEL) == 0;
}

bool ref_try(struct percpu_ref *ref) { return percpu_ref_tryget(ref); }
bool ref_live(struct percpu_ref *ref) { return percpu_ref_tryget_live(ref); }
void ref_get(struct percpu_ref *ref, unsigned long n) { percpu_ref_get_many(ref, n); }
void ref_put(struct percpu_ref *ref, unsigned long n) { percpu_ref_put_many(ref, n); }
bool ref_zero(struct percpu_ref *ref) { return percpu_ref_is_zero(ref); }
bool ref_dying(struct percpu_ref *ref) { return percpu_ref_is_dying(ref); }
void ref_kill(struct percpu_ref *ref) { percpu_ref_kill(ref); }
void ref_reinit(struct percpu_ref *ref) { percpu_ref_reinit(ref); }
void ref_resurrect(struct percpu_ref *ref) { percpu_ref_resurrect(ref); }
void ref_atomic(struct percpu_ref *ref) { percpu_ref_switch_to_atomic_sync(ref); }
void ref_slots(struct percpu_ref *ref) { percpu_ref_switch_to_percpu(ref); }
