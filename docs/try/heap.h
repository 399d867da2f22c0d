/* The memory below the heap, in pages of 65,536 bytes: wasm.c has it of the module's own memory, and a test of another. */
#ifndef HEAP_H
#define HEAP_H

typedef unsigned char byte;
typedef unsigned long long word;

#define PAGE_BYTES 65536ULL
#define NO_PAGES (~0ULL)

/* The first byte that the heap may use: a multiple of 16. */
byte *first_byte(void);

/* The number of pages that are there, counted from the address 0 of the module. */
word pages(void);

/* Adds pages behind the last one, and returns the number from before; NO_PAGES if they are refused. */
word add_pages(word count);

/* The address of the byte behind the last page. */
byte *end_of_pages(void);

/* What the compiled crate gets: whether there is a block, and its first byte. */
typedef struct {
    word is_there;
    byte *block;
} allocation;

allocation rattle_alloc(word size, word alignment);
allocation rattle_realloc(byte *block, word kept, word size, word alignment);
void rattle_dealloc(byte *block);

/* The page's own: a block for the input or the answer, 0 if it is refused, and a bound on the memory. */
byte *room(word size);
void bound(word bytes);

#endif
