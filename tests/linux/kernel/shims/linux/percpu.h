/* A per-cpu pointer is the first processor's; each has a line of its own. this_cpu_add is one step beside the interrupts of
 * its processor. */
#ifndef SHIM_PERCPU
#define SHIM_PERCPU
#include <linux/gfp.h>
#include <linux/types.h>
static inline void *shim_alloc_percpu(size_t size, size_t align)
{
    return size <= SHIM_LINE && align <= SHIM_LINE ? shim_alloc(SHIM_CPUS * SHIM_LINE) : NULL;
}
#define __alloc_percpu_gfp(size, align, gfp) ((void)(gfp), shim_alloc_percpu(size, align))
#define free_percpu(p) shim_free(p)
#define for_each_possible_cpu(c) for ((c) = 0; (unsigned)(c) < shim_cpus; (c)++)
#define shim_line(p, c) ((__typeof__(p))((char *)(p) + (size_t)(c) * SHIM_LINE))
#define per_cpu_ptr(p, c) shim_line(p, c)
#define this_cpu_add(v, n) shim_cpu_add(shim_line(&(v), shim_cpu()), n)
#define this_cpu_sub(v, n) shim_cpu_add(shim_line(&(v), shim_cpu()), -(unsigned long)(n))
#define this_cpu_inc(v) this_cpu_add(v, 1)
#define this_cpu_dec(v) this_cpu_sub(v, 1)
#endif
