/* The module's memory, for heap.c. */
#include "heap.h"

extern byte __heap_base;

byte *first_byte(void)
{
    return (byte *)(((word)&__heap_base + 15) & ~15ULL);
}

word pages(void)
{
    return __builtin_wasm_memory_size(0);
}

word add_pages(word count)
{
    return __builtin_wasm_memory_grow(0, count);
}

byte *end_of_pages(void)
{
    return (byte *)(pages() * PAGE_BYTES);
}
