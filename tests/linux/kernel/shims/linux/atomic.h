/* Documentation/atomic_t.txt: an operation that returns a value is one step with a full barrier, another is one step. */
#ifndef SHIM_ATOMIC
#define SHIM_ATOMIC
#include <linux/types.h>
typedef struct { long counter; } atomic_t;
typedef struct { long counter; } atomic_long_t;
#define atomic_inc_return(v) ((int)shim_add_return(&(v)->counter, 1))
#define atomic_long_set(v, n) shim_store(&(v)->counter, n)
#define atomic_long_read(v) shim_load(&(v)->counter)
#define atomic_long_add(n, v) shim_add(&(v)->counter, n)
#define atomic_long_sub(n, v) shim_add(&(v)->counter, -(long)(n))
#define atomic_long_inc(v) shim_add(&(v)->counter, 1)
#define atomic_long_dec(v) shim_add(&(v)->counter, -1)
#define atomic_long_sub_and_test(n, v) shim_add_and_test(&(v)->counter, -(long)(n))
#define atomic_long_dec_and_test(v) shim_add_and_test(&(v)->counter, -1)
#define atomic_long_add_unless(v, n, unless) shim_add_unless(&(v)->counter, n, unless)
#define atomic_long_inc_not_zero(v) shim_add_unless(&(v)->counter, 1, 0)
#endif
