/* Linked into an instrumented program: notes in the folder COVERAGE which blocks the program runs. NAME-SUM.seen has a byte for each block,
 * shared by all processes of the program, even those that are killed; NAME-SUM.blocks has their addresses from the program's begin. SUM is
 * of the addresses, so that copies of a program share a file. The compiler's SanitizerCoverage calls the functions. */
#define _GNU_SOURCE
#include <errno.h>
#include <fcntl.h>
#include <stdint.h>
#include <stdio.h>
#include <stdlib.h>
#include <sys/mman.h>
#include <unistd.h>

extern char __executable_start;

static uint8_t *seen;
static uint32_t blocks;

void __sanitizer_cov_trace_pc_guard_init(uint32_t *start, uint32_t *stop)
{
    for (uint32_t *guard = start; guard < stop && *guard == 0; guard++)
        *guard = ++blocks;
}

void __sanitizer_cov_trace_pc_guard(const uint32_t *guard)
{
    if (seen && *guard != 0)
        seen[*guard - 1] = 1;
}

/* A block's address from the program's begin; 0 for a block that the compiler left without an address. */
static unsigned long place_of(uintptr_t address)
{
    const uintptr_t begin = (uintptr_t)&__executable_start;
    return address > begin ? address - begin : 0;
}

/* A pair has a block's address and its flags. */
void __sanitizer_cov_pcs_init(const uintptr_t *start, const uintptr_t *stop)
{
    const char *folder = getenv("COVERAGE");
    const size_t count = (size_t)(stop - start) / 2;
    char path[4096];
    uint64_t sum = count;
    if (!folder)
        return;
    for (size_t i = 0; i < count; i++)
        sum = sum * 1099511628211u + place_of(start[2 * i]);
    snprintf(path, sizeof path, "%s/%s-%016lx.seen", folder, program_invocation_short_name, (unsigned long)sum);
    const int file = open(path, O_RDWR | O_CREAT | O_CLOEXEC, 0666);
    void *at = MAP_FAILED;
    if (file >= 0 && ftruncate(file, (off_t)count) == 0)
        at = mmap(NULL, count, PROT_READ | PROT_WRITE, MAP_SHARED, file, 0);
    if (file >= 0)
        close(file);
    if (at == MAP_FAILED)
        return;
    seen = at;
    snprintf(path, sizeof path, "%s/%s-%016lx.blocks", folder, program_invocation_short_name, (unsigned long)sum);
    FILE *table = fopen(path, "wx");
    for (size_t i = 0; table && i < count; i++)
        fprintf(table, "0x%lx\n", place_of(start[2 * i]));
    if (table)
        fclose(table);
}
