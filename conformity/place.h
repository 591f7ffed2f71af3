/* Places in the memory that the kit is lent. Each image and each area stands between guard bytes, so that a write beside it is seen. */
#ifndef PLACE_H
#define PLACE_H

#include "names.h"
#include <stdint.h>

enum {
    GUARD = 16, /* bytes on each side of every place */
    GUARD_BYTE = 0xC3
};

struct place {
    uint8_t *at;
    uint64_t length;
    uint32_t sum; /* of an image before the call */
};

/* What is left of the lent memory. */
struct memory {
    uint8_t *free, *end;
};

/* A place of so many bytes between its guards; its address is 0 where there is no room. Bytes that stood where it is lent stay in it. */
struct place lend(struct memory *memory, uint64_t length);

/* Whether the bytes on both sides of a place are as they were lent. */
int guarded(const struct place *place);

/* A sum of the bytes of a place, by which it is seen whether they have changed. */
uint32_t sum_of(const struct place *place);

#endif
