/*
 * The judging part of the conformity kit: takes the bytes of a vector file one by one, makes each call on the library that it is linked with, and judges
 * what the call left. It needs no heap, no floating point and no library but the one that is judged, so that it runs on a board over any wire.
 */
#ifndef RUNNER_H
#define RUNNER_H

#include <stdint.h>

/* Offered by the host or the board: the next byte of the vector file, or -1 at its end; and where a byte of the report goes. */
int next_byte(void);
void put_byte(int byte);

/* Runs a vector file in `capacity` bytes of memory from `memory` on. 0 where every case that was run held and some were run; else 1. */
int run_vectors(uint8_t *memory, uint64_t capacity);

#endif
