/* Random tables of many families: such as clear and such as do not, with a mirror and without, with sets that close and that do not. */
#ifndef RANDOM_TABLES_H
#define RANDOM_TABLES_H

#include "braid.h"
#include "names.h"
#include "random.h"

/*
 * A table. A cell has the length of C(a,b) and then its moves, or BRAID_OPEN where the pair is open; C(a,a) is empty. Moves are numbered as the family has
 * them, and handed out under other numbers: `name` has them, so that the same family is met in every order of its pairs. A number above `moves` is its own
 * name.
 */
struct table {
    uint8_t moves;
    uint8_t dear; /* a call that clears it or grows its set takes long */
    uint8_t weights[BRAID_MOST_TABLE_MOVES + 1];
    uint8_t name[BRAID_MOST_TABLE_MOVES + 1];
    uint8_t cells[BRAID_MOST_TABLE_MOVES][BRAID_MOST_TABLE_MOVES][1 + BRAID_MOST_COMPLETION];
};

/* What a table is drawn for. */
enum purpose {
    ANY_TABLE,
    CLEARING_TABLE, /* likely to clear */
    MIRROR_TABLE,   /* mostly with a mirror, at times without one */
    SET_TABLE,      /* for compare_signed */
    BED_TABLE       /* the braid table, or nearly that */
};

/* Draws a table; `spare` is memory to work in. */
void draw_table(struct random *r, enum purpose purpose, struct table *table, struct table *spare);

/* The cell of C(a,b). */
const uint8_t *cell_of(const struct table *table, unsigned a, unsigned b);

#endif
