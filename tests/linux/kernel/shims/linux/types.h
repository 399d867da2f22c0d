/* Words of the kernel's types and compiler headers. */
#ifndef SHIM_TYPES
#define SHIM_TYPES
#include "../shim.h"
#include <stdint.h>
#define __percpu
#define __must_check __attribute__((warn_unused_result))
#define BITS_PER_LONG ((int)sizeof(long) * 8)
#define likely(x) __builtin_expect(!!(x), 1)
#define unlikely(x) __builtin_expect(!!(x), 0)
/* Each is one load or store, which the compiler neither repeats nor leaves out. The kernel orders by address dependencies too,
 * of which C and its sanitizers know nothing: for these a load may be made to acquire. */
#ifndef SHIM_DEPENDENT
#define SHIM_DEPENDENT __ATOMIC_RELAXED
#endif
#define READ_ONCE(x) __atomic_load_n(&(x), SHIM_DEPENDENT)
#define WRITE_ONCE(x, v) __atomic_store_n(&(x), v, __ATOMIC_RELAXED)
#define smp_load_acquire(p) __atomic_load_n(p, __ATOMIC_ACQUIRE)
#define smp_store_release(p, v) __atomic_store_n(p, v, __ATOMIC_RELEASE)
#define smp_mb() __atomic_thread_fence(__ATOMIC_SEQ_CST)
#define smp_rmb() __atomic_thread_fence(__ATOMIC_ACQUIRE)
#define smp_wmb() __atomic_thread_fence(__ATOMIC_RELEASE)
#endif
