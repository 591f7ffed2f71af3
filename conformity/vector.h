/* A call that was made, as a block of a vector file (conformity/README.md has the format). */
#ifndef VECTOR_H
#define VECTOR_H

#include "call.h"
#include "names.h"

/* Puts the block with its empty line. What the call came to is what the block expects; the title says with which seed the case was met. */
void put_vector(const struct call *call, uint64_t seed);

#endif
