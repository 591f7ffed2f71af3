/* The outcomes of a call: its result and, where one call has several outcomes of one result, which of them the first value tells (specification 8.3). */
#ifndef OUTCOME_H
#define OUTCOME_H

#include "names.h"
#include <stdint.h>

enum {
    RESULTS = 25, /* 0 to 24 */
    ANSWERS = 3,  /* answers of one call that the first value tells apart, at most */
    STOPS = 4,    /* kinds of places that 11 and 12 have: the programs, a triple, a triple of the mirror, the set */
    OUTCOMES = ANSWERS + 2 * STOPS + (RESULTS - 3) + 1 /* the last is for a first value that no outcome has */
};

/* The number of an outcome, from 0 to OUTCOMES - 1; a result is below RESULTS. */
unsigned outcome_of(int kind, uint64_t result, uint64_t first);

/* Whether the specification says that a call can have an outcome (7.1, 7.2, 8.3). */
int can_have(int kind, unsigned outcome);

/* The call, a comma and the outcome in words, as in 'compare, 0 same' or 'reverse, 10'. */
void put_outcome(int kind, unsigned outcome);

#endif
