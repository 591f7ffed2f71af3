/*
 * Random calls from a seed: which call, its images, text, tray or chain, its numbers and the lengths of its areas. Images are sound or damaged, programs
 * often joined, and limits small, wide, or around what the call just needs. A call follows from the seed and the sizes, and from what the library answers
 * that is asked. It needs no heap, no floating point and no library, so that a board can draw the same calls.
 */
#ifndef RANDOM_CALLS_H
#define RANDOM_CALLS_H

#include "call.h"
#include "names.h"

enum { LEAST_IMAGE = 4200 }; /* any table in plain form, or more moves than a program has */

/* How large calls may be. With programs of up to 64 moves, images of LEAST_IMAGE bytes and areas of 1,750, a million calls from seed 1 on met every outcome,
 * each with its areas in 24,000 bytes of memory. */
struct sizes {
    uint32_t moves; /* of the longest program: at most BRAID_MOST_MOVES */
    uint32_t image; /* bytes of the longest image, plain form, text or tray: at least LEAST_IMAGE */
    uint32_t area;  /* bytes of the longest workspace or answer area */
};

/* Makes a call, of which the areas have lengths and no memory yet, on a library that is trusted: result and values then stand in the call, and its answer
 * area has an address at which that library's bytes stand until the next question. */
typedef void ask_library(struct call *call);

/*
 * Draws the call of a seed. Its images are lent from the memory; its areas have lengths only. `ask` may be a null pointer: then limits are not drawn around
 * what the call needs, and the numbers of commit are mostly other ones. 0 where the sizes are out of range or the memory does not suffice: two tables
 * (struct table), two of the longest programs and five of the longest images, with 32 bytes for each image, always do.
 */
int draw_call(uint64_t seed, const struct sizes *sizes, ask_library *ask, struct memory *memory, struct call *call);

#endif
