/* Tests the heap of the page's module over an arena of this program: large blocks cut into small ones, neighbouring blocks in random
 * calls, refusals at the bound, and the 128-bit product against the compiler's. */
#include "heap.h"

#include <sanitizer/asan_interface.h>
#include <stdio.h>
#include <stdlib.h>
#include <string.h>

#define ARENA_PAGES 1024
#define LIVE 400
#define CALLS 200000
#define MIB (1ULL << 20)
#define SMALL (32ULL << 10)

__extension__ typedef unsigned __int128 wide;
wide product_of(wide x, wide y);

static _Alignas(65536) byte arena[ARENA_PAGES * PAGE_BYTES];
/* The first page is the module's own, as far as the heap is concerned. */
static word there = 2;
static int checks, failed;

byte *first_byte(void)
{
    return arena + PAGE_BYTES;
}

word pages(void)
{
    return there;
}

byte *end_of_pages(void)
{
    return arena + there * PAGE_BYTES;
}

/* What isn't added yet may not be touched. */
word add_pages(word count)
{
    word before = there;
    if (count > ARENA_PAGES - there)
        return NO_PAGES;
    ASAN_UNPOISON_MEMORY_REGION(end_of_pages(), count * PAGE_BYTES);
    there += count;
    return before;
}

static void check(const char *name, int is_so)
{
    failed += !is_so;
    printf("%sok %d - %s\n", is_so ? "" : "not ", ++checks, name);
}

static unsigned long long seed = 1;

static word random_below(word count)
{
    seed = seed * 6364136223846793005ULL + 1442695040888963407ULL;
    return (seed >> 33) % count;
}

/* Below 16 KiB, but for one of sixty, which is below 2 MiB. */
static word random_size(void)
{
    return random_below(1ULL << (1 + random_below(random_below(60) ? 14 : 21)));
}

typedef struct {
    byte *block;
    word size;
    byte filled;
} live;

static live blocks[LIVE];

static void fill(live *it, byte *block, word size)
{
    *it = (live){block, size, (byte)random_below(256)};
    memset(block, it->filled, size);
}

/* Whether a block has what was written to it, in the first bytes. */
static int is_kept(const live *it, const byte *block, word size)
{
    for (word at = 0; at < size; at++)
        if (block[at] != it->filled)
            return 0;
    return 1;
}

static int is_aligned(const byte *block)
{
    return (word)block % 16 == 0;
}

/* One call on one of the blocks: a new one, a freed one, or one of another size. Whether all is as it should be. */
static int is_right_after_a_call(live *it)
{
    word size = random_size();
    if (!it->block) {
        allocation new = rattle_alloc(size, 8);
        if (new.is_there)
            fill(it, new.block, size);
        return !new.is_there || is_aligned(new.block);
    }
    if (!is_kept(it, it->block, it->size))
        return 0;
    if (random_below(2)) {
        rattle_dealloc(it->block);
        it->block = 0;
        return 1;
    }
    allocation new = rattle_realloc(it->block, it->size, size, 8);
    if (!new.is_there)
        return is_kept(it, it->block, it->size);
    int is_right = is_aligned(new.block) && is_kept(it, new.block, size < it->size ? size : it->size);
    fill(it, new.block, size);
    return is_right;
}

static byte *block_of(word size)
{
    return rattle_alloc(size, 8).block;
}

static byte *freed_block_of(word size)
{
    byte *block = block_of(size);
    rattle_dealloc(block);
    return block;
}

/* The first block would fill the first page but for its header, so pages are added. A bound is kept and met to the page, also if only
 * less can be added than the heap would like to. */
static void first_pages(void)
{
    byte *first = block_of(PAGE_BYTES);
    check("a header has its room too", first + PAGE_BYTES <= end_of_pages());
    memset(first, 1, PAGE_BYTES);
    word before = there, left = (word)(end_of_pages() - first) - PAGE_BYTES;
    check("there is no room for a MiB with its header", left < MIB + 16 && left + PAGE_BYTES >= MIB + 16);
    bound((before + 1) * PAGE_BYTES - 1);
    check("a bound is kept to the page", !rattle_alloc(MIB, 8).is_there && there == before);
    bound((before + 1) * PAGE_BYTES);
    byte *block = block_of(MIB);
    check("a bound is met to the page", block && there == before + 1);
    byte *moved = rattle_realloc(block, MIB, 2 * MIB, 8).block;
    check("a move that is refused leaves the block", !moved && !rattle_alloc(MIB, 8).is_there);
    bound(1ULL << 40);
}

/* Blocks of 32 bytes fill a freed MiB but for 64 bytes, which are no room for a block of 64 and its header. */
static void last_bytes(void)
{
    byte *large = block_of(MIB), *behind = block_of(MIB);
    check("two large blocks are neighbours", behind == large + MIB + 16);
    memset(behind, 7, MIB);
    rattle_dealloc(large);
    byte *block = block_of(32);
    while (block && (block < large || block > large + MIB))
        block = block_of(32);
    check("a freed MiB is cut", block != 0);
    if (!block)
        return;
    for (word count = 1; count < (MIB - 64) / 48; count++)
        block = block_of(32);
    check("the blocks lie side by side", block + 32 + 64 == large + MIB);
    block = block_of(64);
    check("a block that has no room there lies elsewhere", block < large || block > large + MIB);
    memset(block, 8, 64);
    check("the neighbour is as it was", behind[0] == 7 && behind[MIB - 1] == 7);
    rattle_dealloc(behind);
    check("and is freed as what it is", block_of(MIB) == behind);
}

static int lies_in(const byte *block, const byte *large, word size)
{
    return block >= large && block + SMALL <= large + size;
}

/* How many small blocks lie in a freed large one, once the chunk before it is used up, each of which keeps its bytes. */
static word small_blocks_in(const byte *large, word size)
{
    word count = 0;
    int are_kept = 1;
    byte *block = block_of(SMALL);
    for (word left = MIB / SMALL; left > 0 && !lies_in(block, large, size); left--)
        block = block_of(SMALL);
    for (; lies_in(block, large, size) && count < LIVE; block = block_of(SMALL))
        fill(&blocks[count++], block, SMALL);
    for (word at = 0; at < count; at++) {
        are_kept &= is_kept(&blocks[at], blocks[at].block, SMALL);
        rattle_dealloc(blocks[at].block);
        blocks[at].block = 0;
    }
    check("small blocks of a large one keep their bytes", are_kept);
    return count;
}

/* A freed block of 1 MiB or more is cut into small ones before the memory grows, the smallest such block first, and one below 1 MiB
 * is kept for its own size. */
static void chunks(void)
{
    byte *half = freed_block_of(MIB / 2), *large = block_of(6 * MIB), *larger = block_of(8 * MIB);
    rattle_dealloc(larger);
    rattle_dealloc(large);
    word before = there, header = 16;
    check("the smallest large block is cut, to its end", small_blocks_in(large, 6 * MIB) == 6 * MIB / (SMALL + header));
    check("and the memory doesn't grow for that", there == before);
    check("a freed small block is used again", (word)(block_of(SMALL) - large) < 6 * MIB);
    check("the next large block is whole", block_of(7 * MIB) != larger && block_of(MIB / 2) == half);
    byte *one = freed_block_of(MIB), *other = freed_block_of(MIB);
    check("a freed large block is used again", one == other);
}

/* A vector that doubles, and is freed, needs no new memory in its second life. */
static void doubling(void)
{
    word after_first = 0;
    for (int life = 0; life < 20; life++) {
        byte *block = block_of(32);
        for (word size = 32; size < 4 * MIB; size *= 2)
            block = rattle_realloc(block, size, 2 * size, 8).block;
        rattle_dealloc(block);
        after_first = life ? after_first : there;
    }
    check("a vector that doubles leaves its memory for the next", there == after_first);
}

/* A block stays where it is while it has room and isn't much too large. */
static void other_sizes(void)
{
    byte *block = block_of(100);
    memcpy(block, "0123456789abcdef0123456789abcdef", 32);
    check("a block grows in its place", rattle_realloc(block, 100, 128, 8).block == block);
    check("a block shrinks in its place", rattle_realloc(block, 128, 33, 8).block == block);
    byte *small = rattle_realloc(block, 33, 32, 8).block;
    check("a block that is much too large is replaced", small != block && !memcmp(small, "0123456789abcdef0123456789abcdef", 32));
    check("and is used again", block_of(128) == block);
    check("a block of 33 bytes has room for 48", rattle_realloc(small, 32, 33, 8).block != small);
    byte *other = block_of(33);
    check("and stays up to 48", rattle_realloc(other, 33, 48, 8).block == other && rattle_realloc(other, 48, 49, 8).block != other);
}

static void random_calls(void)
{
    int are_right = 1;
    for (int call = 0; call < CALLS; call++)
        are_right &= is_right_after_a_call(&blocks[random_below(LIVE)]);
    check("blocks keep their bytes beside others", are_right);
    check("freed blocks are used again", there < ARENA_PAGES);
}

static void refusals(void)
{
    check("an alignment above 16 is refused", !rattle_alloc(8, 64).is_there);
    check("a block of 2^63 bytes is refused", !rattle_alloc(1ULL << 63, 8).is_there);
    check("a block of all bytes is refused", !rattle_alloc(~0ULL, 8).is_there);
    check("a block larger than the arena is refused", !rattle_alloc(ARENA_PAGES * PAGE_BYTES, 8).is_there);
    check("the page's room is refused alike", room(ARENA_PAGES * PAGE_BYTES) == 0);
    check("a small one is there after that", rattle_alloc(8, 8).is_there);
    word before = there;
    bound(there * PAGE_BYTES);
    int count = 0;
    while (count < 1000 && rattle_alloc(60000, 8).is_there)
        count++;
    check("the bound is kept", count < 1000 && there == before);
    bound((there + 3) * PAGE_BYTES);
    check("a higher bound lets it grow, by less than it would like to", rattle_alloc(100000, 8).is_there && there <= before + 3);
    check("and no further", !rattle_alloc(5 * MIB, 8).is_there && there + 5 * MIB / PAGE_BYTES < ARENA_PAGES);
}

static void products(void)
{
    int are_right = 1;
    for (int call = 0; call < CALLS; call++) {
        word part[4];
        for (int at = 0; at < 4; at++) {
            word high = random_below(1ULL << 31) << 33, low = random_below(1ULL << 31) << 2;
            part[at] = random_below(4) ? high ^ low ^ random_below(8) : ~0ULL;
        }
        wide x = (wide)part[0] << 64 | part[1], y = (wide)part[2] << 64 | part[3];
        are_right &= product_of(x, y) == x * y;
    }
    check("a product of 128 bits is the compiler's", are_right);
}

int main(void)
{
    ASAN_POISON_MEMORY_REGION(arena, sizeof(arena));
    ASAN_UNPOISON_MEMORY_REGION(first_byte(), PAGE_BYTES);
    first_pages();
    last_bytes();
    chunks();
    doubling();
    other_sizes();
    random_calls();
    refusals();
    products();
    printf("1..%d\n", checks);
    return failed > 0;
}
