/* Numbers at random: the same seed makes the same ones. */
#ifndef CHANCE_H
#define CHANCE_H

#include <stdbool.h>
#include <stdint.h>

static uint64_t chance_state;

static inline uint64_t any(void)
{
    uint64_t z = chance_state += UINT64_C(0x9E3779B97F4A7C15);
    z = (z ^ z >> 30) * UINT64_C(0xBF58476D1CE4E5B9);
    z = (z ^ z >> 27) * UINT64_C(0x94D049BB133111EB);
    return z ^ z >> 31;
}

static inline unsigned below(uint64_t bound)
{
    return (unsigned)(any() % bound);
}

static inline bool once_in(unsigned times)
{
    return below(times) == 0;
}

#endif
