/* Numbers by chance, by splitmix64. */
#include "chance.h"

static uint64_t state;

void chance_seed(uint64_t seed)
{
    state = seed;
}

uint64_t chance(void)
{
    uint64_t z = state += 0x9e3779b97f4a7c15u;
    z = (z ^ z >> 30) * 0xbf58476d1ce4e5b9u;
    z = (z ^ z >> 27) * 0x94d049bb133111ebu;
    return z ^ z >> 31;
}

uint32_t below(uint32_t bound)
{
    return (uint32_t)((chance() >> 32) * bound >> 32);
}

uint32_t between(uint32_t least, uint32_t most)
{
    return least + below(most - least + 1);
}

bool one_in(uint32_t n)
{
    return below(n) == 0;
}

/* Draws stand in statements of their own, here and elsewhere, where two of them in one expression
 * would leave their order to the compiler. */
uint32_t any_32(void)
{
    uint32_t shift = below(32);
    switch (below(4)) {
    case 0: return UINT32_MAX - below(3);
    case 1: return (1u << shift) + below(3) - 1;
    case 2: return (uint32_t)chance() >> shift;
    default: return (uint32_t)chance();
    }
}
