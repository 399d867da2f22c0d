/* The memory that a proved library asks for, where the kit has no C part for the processor: over malloc, realloc and free, as the
 * kit's libc/src/heap.rt states it. No size is 0 to C, and what is refused points at a byte that nobody owns. */
#include <stdbool.h>
#include <stdlib.h>

struct tried { bool ok; void *at; };

static char nothing;

static struct tried tried(void *at)
{
    return (struct tried){at != NULL, at != NULL ? at : &nothing};
}

struct tried rattle_alloc(size_t size, size_t align);
struct tried rattle_realloc(void *at, size_t kept, size_t size, size_t align);
void rattle_dealloc(void *at);

struct tried rattle_alloc(size_t size, size_t align)
{
    return tried(malloc(size > 0 ? size : align));
}

struct tried rattle_realloc(void *at, size_t kept, size_t size, size_t align)
{
    (void)kept;
    return tried(realloc(at, size > 0 ? size : align));
}

void rattle_dealloc(void *at)
{
    free(at);
}
