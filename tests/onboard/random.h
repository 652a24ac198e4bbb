/* Numbers that look random, the same sequence on every machine (splitmix64). */
#ifndef RANDOM_H
#define RANDOM_H
#include <stdint.h>

static uint64_t seed;

static inline uint64_t any64(void)
{
    uint64_t z = (seed += 0x9E3779B97F4A7C15u);
    z = (z ^ z >> 30) * 0xBF58476D1CE4E5B9u;
    z = (z ^ z >> 27) * 0x94D049BB133111EBu;
    return z ^ z >> 31;
}

static inline uint32_t below(uint32_t n) { return (uint32_t)((any64() >> 32) * n >> 32); }

/* one time in n */
static inline int seldom(uint32_t n) { return below(n) == 0; }
#endif
