/* Random texts for import: sound patterns of the notation (specification 6.17), damaged ones and any bytes. */
#ifndef RANDOM_TEXTS_H
#define RANDOM_TEXTS_H

#include "names.h"
#include "random.h"

/* Writes a text for a table of so many moves into `room` bytes from `at` on, and is cut where it has no more room; its number of bytes. */
uint32_t draw_text(struct random *r, unsigned moves, uint8_t *at, uint32_t room);

#endif
