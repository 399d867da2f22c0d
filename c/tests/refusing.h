/* Included by tests that refuse allocations and count them. They are linked with --wrap=malloc, free and
 * posix_memalign. */
#ifndef REFUSING_H
#define REFUSING_H
#include <errno.h>
#include <stdbool.h>
#include <stddef.h>

void *__real_malloc(size_t size);
int __real_posix_memalign(void **at, size_t alignment, size_t size);
void __real_free(void *at);
static long allowed = -1; /* none refused */
static long blocks;       /* that were had and not given back */
static long refusals;     /* that malloc refused */

/* Whether the next allocation is refused. */
static bool is_refused(void)
{
    const bool refused = allowed == 0;
    refusals += refused;
    allowed -= allowed > 0;
    return refused;
}

void *__wrap_malloc(size_t size)
{
    void *at = is_refused() ? NULL : __real_malloc(size);
    blocks += at != NULL;
    return at;
}

int __wrap_posix_memalign(void **at, size_t alignment, size_t size)
{
    int refused = is_refused() ? ENOMEM : __real_posix_memalign(at, alignment, size);
    blocks += refused == 0;
    return refused;
}

void __wrap_free(void *at)
{
    blocks -= at != NULL;
    __real_free(at);
}
#endif
