/* Included by tests of which calls take no step, not even one that is taken back: while such a call runs the words that count
 * are memory that no thread may write, so a write is told. Linked with --wrap=malloc, free and posix_memalign: each block has pages of its own. */
#ifndef STEPLESS_H
#define STEPLESS_H
#include "is.h"

#include <signal.h>
#include <stdbool.h>
#include <stdlib.h>
#include <sys/mman.h>

enum { PAGE = 4096, BLOCKS = 2048 };

/* The value of a call that takes no step, and the one of a call that does. */
#define STEPLESS(call) (guards(true), tells_steps(#call, (call), 0, __LINE__))
#define STEPS(call) (guards(true), tells_steps(#call, (call), 1, __LINE__))

static struct { char *at; size_t size; } blocks[BLOCKS];
static int block_count, the_table;
static volatile sig_atomic_t writes;

void *__wrap_malloc(size_t size);
int __wrap_posix_memalign(void **at, size_t alignment, size_t size);
void __wrap_free(void *at);

void *__wrap_malloc(size_t size)
{
    size_t whole = (size + PAGE - 1) / PAGE * PAGE;
    void *at = mmap(NULL, whole, PROT_READ | PROT_WRITE, MAP_PRIVATE | MAP_ANONYMOUS, -1, 0);
    if (at == MAP_FAILED || block_count == BLOCKS)
        abort();
    blocks[block_count].at = at;
    blocks[block_count++].size = whole;
    return at;
}

int __wrap_posix_memalign(void **at, size_t alignment, size_t size)
{
    *at = alignment <= PAGE ? __wrap_malloc(size) : NULL;
    return *at == NULL;
}

void __wrap_free(void *at) { (void)at; }

/* Lets the words that count be written, or not. */
static void guards(bool on)
{
    if (on)
        writes = 0;
    if (mprotect(blocks[the_table].at, blocks[the_table].size, on ? PROT_READ : PROT_READ | PROT_WRITE) != 0)
        abort();
}

static void on_write(int number, siginfo_t *of, void *context)
{
    char *at = of->si_addr;
    (void)number;
    (void)context;
    if (at < blocks[the_table].at || at >= blocks[the_table].at + blocks[the_table].size)
        abort();
    writes = 1;
    guards(false);
}

static void tells_writes(void)
{
    struct sigaction action = {.sa_sigaction = on_write, .sa_flags = SA_SIGINFO};
    if (sigaction(SIGSEGV, &action, NULL) != 0)
        exit(2);
}

static uint64_t tells_steps(const char *what, uint64_t answer, int steps, int line)
{
    guards(false);
    is(what, (uint64_t)writes, (uint64_t)steps, line);
    return answer;
}

/* Finds the words that count. They are in the one block that each of two actors writes when it comes in. */
static void finds_the_table(void (*comes_in)(int), void (*goes_out)(int))
{
    int found = 0;
    for (int i = 0; i < block_count; i++) {
        int written = 0;
        for (int actor = 0; actor < 2; actor++) {
            the_table = i;
            guards(true);
            comes_in(actor);
            guards(false);
            written += writes;
            goes_out(actor);
        }
        if (written == 2)
            found = i + 1;
    }
    TELLS(found > 0, true);
    the_table = found - 1;
}
#endif
