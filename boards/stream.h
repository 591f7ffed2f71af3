/* A stream of random calls (stream.c), and how large they are: the same on every processor, so that streams can be compared. */
#ifndef STREAM_H
#define STREAM_H

#include <stdint.h>

#define STREAM_MOVES 400
#define STREAM_IMAGE 12000
#define STREAM_AREA 33000
#define STREAM_MEMORY 400000

/* Makes the calls of the seeds from one on. 0 where all left only what they may. */
int run_stream(uint64_t seed, uint64_t calls);

#endif
