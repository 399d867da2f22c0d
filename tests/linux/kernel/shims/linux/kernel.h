/* Warnings come each time, and not only once; pr_debug is silent, as in a kernel that is built without DEBUG. */
#ifndef SHIM_KERNEL
#define SHIM_KERNEL
#include <errno.h>
#include <linux/types.h>
#define max_t(t, a, b) ((t)(a) > (t)(b) ? (t)(a) : (t)(b))
#define container_of(p, t, m) ((t *)((char *)(p) - offsetof(t, m)))
#define EXPORT_SYMBOL_GPL(f) extern __typeof__(f) f
#define EXPORT_SYMBOL(f) extern __typeof__(f) f
#define WARN_ON_ONCE(c) shim_warn(c, #c)
#define WARN_ON(c) shim_warn(c, #c)
#define WARN_ONCE(c, ...) shim_warn(c, #c)
#define WARN(c, ...) shim_warn(c, #c)
#define BUG_ON(c) ((void)shim_warn(c, #c))
#define pr_debug(...) ((void)0)
#define pr_err(...) ((void)shim_warn(true, "pr_err"))
#endif
