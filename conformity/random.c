/* Random numbers from a seed (SplitMix64). */
#include "random.h"

uint64_t random_bits(struct random *r)
{
    uint64_t z = r->state += 0x9E3779B97F4A7C15u;
    z = (z ^ (z >> 30)) * 0xBF58476D1CE4E5B9u;
    z = (z ^ (z >> 27)) * 0x94D049BB133111EBu;
    return z ^ (z >> 31);
}

uint32_t below(struct random *r, uint32_t bound)
{
    return (uint32_t)((random_bits(r) >> 32) * bound >> 32);
}

uint32_t between(struct random *r, uint32_t least, uint32_t most)
{
    return least + below(r, most - least + 1);
}

int once_in(struct random *r, uint32_t times)
{
    return below(r, times) == 0;
}
