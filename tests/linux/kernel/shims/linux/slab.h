#ifndef SHIM_SLAB
#define SHIM_SLAB
#include <linux/gfp.h>
#include <linux/types.h>
#define kzalloc(size, gfp) ((void)(gfp), shim_alloc(size))
#define kfree(p) shim_free(p)
#endif
