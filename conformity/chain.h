/* Following a listed chain, without the library that listed it. */
#ifndef CHAIN_H
#define CHAIN_H

#include "braid.h"
#include "names.h"
#include "place.h"

enum { MOST_WORD = BRAID_MOST_WEIGHT * BRAID_MOST_MOVES }; /* moves of a word on the way of a chain */

/* Whether an image has so many entries and nothing behind them, and they lead from the first program to the second. Table and programs are sound images. The
 * words on the way stand in `room` bytes from `word` on; with less than MOST_WORD it says no. */
int leads(const struct place *table, const struct place *first, const struct place *second, const struct place *chain, uint64_t entries,
          uint8_t *word, uint64_t room);

#endif
