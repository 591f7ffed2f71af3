/*
 * Families of tables. A table is made of blocks of moves, one behind the other; moves of different blocks commute or are open to each other. A family adds its
 * block, of `count` moves where that is handed in, to a table that has been begun.
 */
#ifndef FAMILIES_H
#define FAMILIES_H

#include "names.h"
#include "random_tables.h"

/* What weighs the same in every relation of a table. */
enum equal { SIDES, COMPLETIONS, NOTHING };

/* BLOCKS */

/* A table of no moves. All pairs are open until a block says otherwise. */
void begin(struct table *t);

/* Adds so many moves, or as many as there is room for; the first of them. */
unsigned block(struct table *t, unsigned count);

/* Lets the moves up to `last` commute with those behind them. */
void commute_with(struct table *t, unsigned last);

/* Gives the moves from one on the same weight. */
void weigh(struct table *t, unsigned first, unsigned weight);

/* Weights of the moves from one on: mostly all 1, at times all the same or any. */
void weigh_some(struct random *r, struct table *t, unsigned first);

/* FAMILIES */

/* Sides of `length` moves for neighbours, of 2 for all others: 3 is the braid table, 2 lets all commute. */
void neighbours(struct table *t, unsigned count, unsigned length);

void braid(struct table *t, unsigned count);

/* The braid table but for 1 2 1 2 = 2 1 2 1. */
void folded(struct table *t, unsigned count);

/* Some pairs commute, and one in so many is open. */
void partly_commuting(struct random *r, struct table *t, unsigned count, unsigned open);

/* C(a,b) = b a for every pair: with three moves or more some reversings never end. */
void endless(struct table *t, unsigned count);

/* A table of Artin and Tits: a b a .. = b a b .. of a random length for each pair, or open. Sides of an even length weigh the same whatever the weights are. */
void artin(struct random *r, struct table *t, unsigned count);

/* Powers of all moves are the same: all of one exponent, or those of one weight. */
void powers(struct random *r, struct table *t, unsigned count);

/* 1 2 = 2 3 = .. = n 1. */
void cyclic(struct table *t, unsigned count);

/* All sides are the same, and each ends in another move. The last moves go round in one cycle, so that from three moves on the table is not its own mirror. */
void whole(struct random *r, struct table *t, unsigned count);

/* Move 2 is so many times move 1. */
void multiple(struct table *t, unsigned power);

/* Move 2 is so many times move 1, and both commute with move 3: 2 3 = 3 1 1 .., in which a word grows. */
void growing(struct random *r, struct table *t);

/* 3 is 1 and 4 is 2, by relations with nothing to complete, and 1 and 2 commute under either number. A step on 1 and 3 lets two different moves vanish. */
void twins(struct random *r, struct table *t);

/* Random completions of the moves from one on; `open` in a hundred pairs are open, and so are those for which no completion of the right weight is met. */
void arbitrary(struct random *r, struct table *t, unsigned first, unsigned longest, unsigned open, enum equal equal);

/* One relation whose sides weigh the same though they need not be equally long. With two moves there is no triple, so that the table always clears. */
void single(struct random *r, struct table *t);

/* A table that is handed in in plain form (specification 5.7). */
void lay_plain(struct table *t, const uint8_t *plain);

/* MIRRORS: a table of its own, which needs no beginning */

/* Random relations whose last moves are drawn first, so that no two share them; `open` in a hundred pairs are open. Completions have at most `longest`
 * moves, which is at least 1. Where `level`, the sides of a relation are equally long and all moves weigh 1. */
void ended(struct random *r, struct table *t, unsigned moves, unsigned longest, unsigned open, int level);

/* A table that has no mirror: a relation's sides end in one move, two relations share their last moves, in either order, or both. */
void mirrorless(struct random *r, struct table *t, unsigned moves);

/* Makes a table its mirror, where it has one. */
void turn(struct table *t, struct table *spare);

/* CHANGES */

/* Changes one completion of a table of two moves or more in which no pair is open and no completion is empty. */
void change_one(struct random *r, struct table *t);

/* Numbers the moves anew. */
void number_anew(struct random *r, struct table *t);

#endif
