/* Random numbers from a seed (SplitMix64), so that every call can be made again. */
#ifndef RANDOM_H
#define RANDOM_H

#include "names.h"
#include <stdint.h>

struct random {
    uint64_t state; /* at first the seed */
};

uint64_t random_bits(struct random *r);

/* A number from 0 to bound - 1; a bound is at least 1. */
uint32_t below(struct random *r, uint32_t bound);

/* A number from `least` to `most`. */
uint32_t between(struct random *r, uint32_t least, uint32_t most);

/* True once in `times`. */
int once_in(struct random *r, uint32_t times);

/* One of the numbers of an array. */
#define PICK(r, array) ((array)[below(r, (uint32_t)(sizeof(array) / sizeof *(array)))])

#endif
