/* The choice of a random table: which family, how many moves, and which of some tables that break a rule. */
#include "random_tables.h"
#include "families.h"

/* TABLES IN PLAIN FORM (specification 5.7) */

/* 1 2 1 = 2 2, where 2 weighs twice as much as 1. */
static const uint8_t doubled[] = {2, 1, 2, 2, 2, 1, 1, 2};
/* 1 2 = 2 2: both sides end in 2, so that there is no mirror. */
static const uint8_t one_end[] = {2, 1, 1, 1, 2, 1, 2};
/* 1 3 = 2 1, 1 2 = 3 3, the pair 2, 3 open: it clears, and its mirror breaks the cube rule. */
static const uint8_t clears_alone[] = {3, 1, 1, 1, 1, 3, 1, 1, 1, 2, 1, 3, 255};
/* 1 2 = 2 1, 1 3 = 3 1, 2 1 = 3 1: it breaks the cube rule. */
static const uint8_t breaks[] = {3, 1, 1, 1, 1, 2, 1, 1, 1, 3, 1, 1, 1, 1, 1, 1};
/* For the triple 1, 2, 3 L is 3 and R is 4, and the pair 3, 4 is open. */
static const uint8_t meets_open[] = {4, 1, 1, 1, 1, 0, 0, 1, 3, 1, 1, 255, 1, 4, 1, 2, 255, 255};
/* 1 3 = 2 and 2 = 3: two relations share their last moves, in the opposite order. */
static const uint8_t shared_crossed[] = {3, 1, 1, 1, 1, 3, 0, 255, 0, 0};
/* 1 3 = 2 and 1 3 = 3 2: two relations share their last moves. */
static const uint8_t shared[] = {3, 1, 1, 1, 1, 3, 0, 1, 3, 1, 2, 255};
/* 1 2 = 2 1 1, the second move of weight 2: the completions weigh the same, the sides do not. */
static const uint8_t unequal_sides[] = {2, 1, 2, 1, 2, 2, 1, 1};

/* 1 1 = 3 3, 2 2 1 = 3 1 2, the pair 1, 2 open: its mirror takes more steps and bytes to clear than the table itself. */
static const uint8_t costly_mirror[] = {3, 1, 1, 1, 255, 1, 1, 1, 3, 2, 2, 1, 2, 1, 2};

/* THE CHOICE OF A FAMILY */

/* Moves of a table: mostly few, at times up to 16. */
static unsigned size(struct random *r)
{
    static const uint8_t most[] = {2, 3, 3, 3, 4, 4, 4, 5, 5, 6, 8, 16};
    return between(r, 1, PICK(r, most));
}

/* A table of few moves whose set is small and closes. */
static void small_set(struct random *r, struct table *t)
{
    switch (below(r, 8)) {
    case 0:
    case 1: braid(t, between(r, 1, 2)); break;
    case 2: neighbours(t, 2, between(r, 2, 6)); break;
    case 3: cyclic(t, between(r, 2, 5)); break;
    case 4: lay_plain(t, doubled); break;
    case 5: neighbours(t, between(r, 1, 4), 2); break;
    case 6: multiple(t, between(r, 1, 8)); break;
    default: powers(r, t, between(r, 1, 4));
    }
}

/* Two tables side by side; moves of different ones commute, or are open to each other. */
static void beside(struct random *r, struct table *t)
{
    unsigned last;
    if (once_in(r, 3)) {
        single(r, t);
    } else {
        small_set(r, t);
    }
    last = t->moves;
    if (once_in(r, 2)) {
        braid(t, between(r, 1, 3));
    } else {
        small_set(r, t);
    }
    if (once_in(r, 2)) {
        commute_with(t, last);
    }
}

static void clearing(struct random *r, struct table *t)
{
    unsigned moves = size(r), few = moves < 5 ? moves : 5;
    begin(t);
    switch (below(r, 14)) {
    case 0:
    case 1: braid(t, moves); break;
    case 2:
        braid(t, moves);
        weigh(t, 1, between(r, 1, 8));
        break;
    case 3: artin(r, t, few); break;
    case 4: powers(r, t, moves); break;
    case 5:
        partly_commuting(r, t, moves, 8);
        weigh_some(r, t, 1);
        break;
    case 6: growing(r, t); break;
    case 7: twins(r, t); break;
    case 8: whole(r, t, few); break;
    case 9: cyclic(t, moves); break;
    case 10: single(r, t); break;
    case 11: small_set(r, t); break;
    default: beside(r, t);
    }
}

/* Random completions, or one of the tables that break a rule. */
static void any(struct random *r, struct table *t)
{
    static const uint8_t lengths[] = {1, 2, 2, 3, 15};
    static const uint8_t *const fixed[] = {clears_alone, breaks, meets_open, one_end, shared, shared_crossed, unequal_sides, doubled};
    unsigned moves = size(r), longest = PICK(r, lengths), kind = below(r, 12);
    if (kind < 3) {
        clearing(r, t);
        return;
    }
    begin(t);
    if (kind < 5) {
        lay_plain(t, PICK(r, fixed));
        return;
    }
    if (kind == 5) {
        endless(t, moves);
        return;
    }
    block(t, moves);
    weigh_some(r, t, 1);
    switch (kind) {
    case 6: arbitrary(r, t, 1, longest, 0, SIDES); break;
    case 7: arbitrary(r, t, 1, longest, 5, SIDES); break;
    case 8: arbitrary(r, t, 1, longest, 50, SIDES); break;
    case 9: arbitrary(r, t, 1, longest, 0, NOTHING); break;
    case 10: arbitrary(r, t, 1, longest, 90, NOTHING); break;
    default: arbitrary(r, t, 1, longest, 20, COMPLETIONS);
    }
}

/* A table that mostly has a mirror. */
static void mirrored(struct random *r, struct table *t, struct table *spare)
{
    static const uint8_t lengths[] = {1, 1, 2, 2, 3, 15};
    static const uint8_t open_of_hundred[] = {0, 0, 10, 60};
    unsigned moves = size(r), more = moves < 3 ? 3 : moves, few = moves < 5 ? moves : 5, longest = PICK(r, lengths), open = PICK(r, open_of_hundred);
    begin(t);
    switch (below(r, 14)) {
    case 0:
        braid(t, moves);
        weigh_some(r, t, 1);
        break;
    case 1:
    case 2: artin(r, t, few); break;
    case 3:
    case 4: whole(r, t, more); break;
    case 5:
    case 6: ended(r, t, more, longest, open, 1); break;
    case 7: ended(r, t, more, longest, open, 0); break;
    case 8: ended(r, t, 3, 2, 40, 1); break;
    case 9:
    case 10: lay_plain(t, once_in(r, 2) ? clears_alone : costly_mirror); break;
    case 11: beside(r, t); break;
    case 12: mirrorless(r, t, moves); break;
    default: any(r, t);
    }
    if (once_in(r, 3)) {
        turn(t, spare);
    }
}

/* 14 moves whose set has 256 words; with one more, 257. */
static void largest_set(struct table *t, int one_more)
{
    unsigned k, last;
    for (k = 0; k < 5; k++) {
        last = t->moves;
        if (k < 3) {
            folded(t, 3);
        } else if (k == 3) {
            neighbours(t, 2, 10);
        } else {
            neighbours(t, one_more ? 4 : 3, 2);
        }
        commute_with(t, last);
    }
    t->dear = 1;
}

/* A table for comparing programs of any signs. Mostly it is small, and its set closes. */
static void comparable(struct random *r, struct table *t, struct table *spare)
{
    begin(t);
    if (once_in(r, 2000)) {
        largest_set(t, once_in(r, 2));
        return;
    }
    if (once_in(r, 60)) {
        braid(t, between(r, 3, 4));
        t->dear = 1;
        return;
    }
    switch (below(r, 24)) {
    case 0:
    case 1: beside(r, t); break;
    case 2: neighbours(t, 2, between(r, 2, once_in(r, 16) ? 16 : 8)); break;
    case 3: neighbours(t, between(r, 1, once_in(r, 16) ? 16 : 5), 2); break;
    case 4: folded(t, once_in(r, 16) ? 3 : 2); break;
    case 5: artin(r, t, 3); break;
    case 6: partly_commuting(r, t, between(r, 3, 5), 4); break;
    case 7:
    case 8: single(r, t); break;
    case 9:
    case 10: whole(r, t, between(r, 2, 4)); break;
    case 11:
    case 12: mirrored(r, t, spare); break;
    case 13: mirrorless(r, t, 3); break;
    case 14: lay_plain(t, once_in(r, 2) ? clears_alone : costly_mirror); break;
    case 15: ended(r, t, 3, 2, 40, 1); break;
    case 16: any(r, t); break;
    case 17: clearing(r, t); break;
    default: small_set(r, t);
    }
}

/* The braid table of any weights; at times with one completion changed, or another table. */
static void bed_table(struct random *r, struct table *t)
{
    if (once_in(r, 8)) {
        any(r, t);
        return;
    }
    begin(t);
    braid(t, size(r));
    weigh_some(r, t, 1);
    if (t->moves > 1 && once_in(r, 4)) {
        change_one(r, t);
    }
}

void draw_table(struct random *r, enum purpose purpose, struct table *table, struct table *spare)
{
    switch (purpose) {
    case CLEARING_TABLE: clearing(r, table); break;
    case MIRROR_TABLE: mirrored(r, table, spare); break;
    case SET_TABLE: comparable(r, table, spare); break;
    case BED_TABLE: bed_table(r, table); break;
    default: any(r, table);
    }
    if (once_in(r, purpose == BED_TABLE ? 16 : 2)) {
        number_anew(r, table);
    }
    if (table->moves > 6) {
        table->dear = 1;
    }
}
