/* Random words over a table, and chains of swaps between them. */
#ifndef RANDOM_WORDS_H
#define RANDOM_WORDS_H

#include "names.h"
#include "random_tables.h"

/* A word in memory of `room` bytes: a byte a move, and BRAID_BACK more for a back one. Moves are numbered as in the cells of the table. */
struct word {
    uint8_t *moves;
    uint32_t length, room;
};

/* A swap: after `offset` moves the side that begins with a gives way to the one that begins with b. */
struct entry {
    uint32_t offset;
    uint8_t a, b;
};

/* Puts a move at the end of a word, where there is room. */
void append(struct word *w, unsigned move);

void copy_word(struct word *to, const struct word *from);

/* Makes a word its undoing. */
void undo(struct word *w);

/* Adds so many random moves, forward ones, back ones or of any signs. */
void add_forward(struct random *r, const struct table *t, struct word *w, uint32_t count);
void add_back(struct random *r, const struct table *t, struct word *w, uint32_t count);
void add_signed(struct random *r, const struct table *t, struct word *w, uint32_t count);

uint32_t weight_of(const struct table *t, const struct word *w);

/* Makes a word one of random forward moves that has a weight, if such a one is met; else it stays as it is. */
void draw_weight(struct random *r, const struct table *t, struct word *w, uint32_t weight);

/* Changes a word by at most so many random swaps, and lists them; their number. */
unsigned walk(struct random *r, const struct table *t, struct word *w, unsigned swaps, struct entry *entries);

/* Changes a word by so many random steps on signed words: swaps, and a move beside its undoing put in or taken out. */
void signed_walk(struct random *r, const struct table *t, struct word *w, unsigned steps);

#endif
