/* Included by tests that draw numbers: the same ones from the same seed. */
#ifndef ANY_BELOW_H
#define ANY_BELOW_H
#include <stdint.h>

static uint64_t seed;

static inline uint32_t any_below(uint32_t n)
{
    seed = seed * 6364136223846793005u + 1442695040888963407u;
    return (uint32_t)(seed >> 33) % n;
}
#endif
