/* The heap of the page's module.
 *
 * A block has a header of 16 bytes with its class. The blocks of a class have room for a power of two from 32 on, or for one and a half
 * times as much, so a vector that doubles wastes nothing. A freed block is kept in the list of its class. Small blocks are cut from a
 * chunk, which is a freed block of 1 MiB or more if there is one, and else new memory. Nothing is returned to the browser before the module's
 * instance goes.
 */
#include "heap.h"

#define CLASSES 72
#define LARGEST (1ULL << 40)
#define LEAST_GROWTH 16
/* The class of a chunk, which has room for 1 MiB; and the first class that isn't cut from chunks, of 64 KiB. */
#define CHUNK 30
#define LARGE 22

typedef struct header {
    word class;
    struct header *next;
} header;

typedef struct {
    byte *next, *end;
} region;

static region memory, chunk;
static header *freed[CLASSES];
static word most_bytes = LARGEST;

static word room_of(word class)
{
    word power = 32ULL << (class / 2);
    return class % 2 ? power + power / 2 : power;
}

static word class_of(word size)
{
    word class = 0;
    while (room_of(class) < size)
        class++;
    return class;
}

/* Adds enough pages for so many more bytes, and some to spare if there is room for them. Whether it could. */
static int has_grown(word bytes)
{
    word needed = (bytes + PAGE_BYTES - 1) / PAGE_BYTES, count = needed < LEAST_GROWTH ? LEAST_GROWTH : needed;
    for (;; count = needed) {
        word is_within = (pages() + count) * PAGE_BYTES <= most_bytes;
        if (is_within && add_pages(count) != NO_PAGES) {
            memory.end = end_of_pages();
            return 1;
        }
        if (count == needed)
            return 0;
    }
}

/* The next bytes of a region, with a header; the region has as many. */
static header *cut(region *from, word class)
{
    header *new = (header *)from->next;
    from->next += room_of(class) + sizeof(header);
    new->class = class;
    return new;
}

static header *of_new_memory(word class)
{
    if (!memory.next)
        memory = (region){first_byte(), end_of_pages()};
    word size = room_of(class) + sizeof(header), left = (word)(memory.end - memory.next);
    return left >= size || has_grown(size - left) ? cut(&memory, class) : 0;
}

static header *of_list(word class)
{
    header *found = freed[class];
    if (found)
        freed[class] = found->next;
    return found;
}

/* A freed block that is large enough, the smallest of them, or a new one. */
static header *for_chunk(void)
{
    for (word class = CHUNK; class < CLASSES; class++)
        if (freed[class])
            return of_list(class);
    return of_new_memory(CHUNK);
}

/* A small block of the chunk; what is left of a chunk that is too short for it is lost. */
static header *of_chunk(word class)
{
    if ((word)(chunk.end - chunk.next) < room_of(class) + sizeof(header)) {
        header *large = for_chunk();
        if (!large)
            return 0;
        byte *first = (byte *)(large + 1);
        chunk = (region){first, first + room_of(large->class)};
    }
    return cut(&chunk, class);
}

static byte *get(word size)
{
    if (size > LARGEST)
        return 0;
    word class = class_of(size);
    header *found = of_list(class);
    if (!found)
        found = class < LARGE ? of_chunk(class) : of_new_memory(class);
    return found ? (byte *)(found + 1) : 0;
}

static header *header_of(byte *block)
{
    return (header *)block - 1;
}

allocation rattle_alloc(word size, word alignment)
{
    byte *block = alignment <= sizeof(header) ? get(size) : 0;
    return (allocation){block != 0, block};
}

void rattle_dealloc(byte *block)
{
    header *old = header_of(block);
    old->next = freed[old->class];
    freed[old->class] = old;
}

allocation rattle_realloc(byte *block, word kept, word size, word alignment)
{
    word there = room_of(header_of(block)->class);
    if (size <= there && size > there / 4)
        return (allocation){1, block};
    allocation new = rattle_alloc(size, alignment);
    if (new.is_there) {
        __builtin_memcpy(new.block, block, kept < size ? kept : size);
        rattle_dealloc(block);
    }
    return new;
}

byte *room(word size)
{
    return get(size);
}

void bound(word bytes)
{
    most_bytes = bytes;
}
