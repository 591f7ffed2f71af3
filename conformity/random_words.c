/* Random words over a table, and chains of swaps between them. */
#include "random_words.h"

void append(struct word *w, unsigned move)
{
    if (w->length < w->room) {
        w->moves[w->length++] = (uint8_t)move;
    }
}

void copy_word(struct word *to, const struct word *from)
{
    uint32_t i;
    to->length = 0;
    for (i = 0; i < from->length; i++) {
        append(to, from->moves[i]);
    }
}

void undo(struct word *w)
{
    uint32_t i;
    for (i = 0; 2 * i + 1 < w->length; i++) {
        uint8_t kept = w->moves[i];
        w->moves[i] = w->moves[w->length - 1 - i];
        w->moves[w->length - 1 - i] = kept;
    }
    for (i = 0; i < w->length; i++) {
        w->moves[i] ^= BRAID_BACK;
    }
}

void add_forward(struct random *r, const struct table *t, struct word *w, uint32_t count)
{
    for (; count > 0; count--) {
        append(w, between(r, 1, t->moves));
    }
}

void add_back(struct random *r, const struct table *t, struct word *w, uint32_t count)
{
    for (; count > 0; count--) {
        append(w, between(r, 1, t->moves) + BRAID_BACK);
    }
}

static uint8_t signed_move(struct random *r, const struct table *t)
{
    uint8_t move = (uint8_t)between(r, 1, t->moves);
    return once_in(r, 2) ? move : move ^ BRAID_BACK;
}

void add_signed(struct random *r, const struct table *t, struct word *w, uint32_t count)
{
    for (; count > 0; count--) {
        append(w, signed_move(r, t));
    }
}

uint32_t weight_of(const struct table *t, const struct word *w)
{
    uint32_t weight = 0, i;
    for (i = 0; i < w->length; i++) {
        weight += t->weights[w->moves[i] % BRAID_BACK];
    }
    return weight;
}

void draw_weight(struct random *r, const struct table *t, struct word *w, uint32_t weight)
{
    unsigned m, lightest = 1;
    for (m = 2; m <= t->moves; m++) {
        lightest = t->weights[m] < t->weights[lightest] ? m : lightest;
    }
    if (weight % t->weights[lightest] != 0 || weight / t->weights[lightest] > w->room) {
        return;
    }
    w->length = 0;
    while (weight > 0) {
        m = between(r, 1, t->moves);
        if (t->weights[m] > weight || (weight - t->weights[m]) % t->weights[lightest] != 0) {
            m = lightest; /* so that the weight is always met */
        }
        append(w, m);
        weight -= t->weights[m];
    }
}

/* Whether the moves of a cell stand in a word from an offset on. */
static int stands(const struct word *w, uint32_t offset, const uint8_t *cell)
{
    unsigned k;
    if (w->length - offset < cell[0]) {
        return 0;
    }
    for (k = 0; k < cell[0]; k++) {
        if (w->moves[offset + k] != cell[1 + k]) {
            return 0;
        }
    }
    return 1;
}

/* Takes some moves of a word out from an offset on, and makes room for others, which are then written; the word has room for them. */
static void make_room(struct word *w, uint32_t offset, uint32_t taken, uint32_t put)
{
    uint32_t i;
    if (put > taken) {
        for (i = w->length; i > offset + taken; i--) {
            w->moves[i - 1 + (put - taken)] = w->moves[i - 1];
        }
    } else if (put < taken) {
        for (i = offset + taken; i < w->length; i++) {
            w->moves[i - (taken - put)] = w->moves[i];
        }
    }
    w->length = w->length + put - taken;
}

/* Swaps the side that stands at an offset for the one that begins with b; 0 where none stands there or there is no room. */
static int swap_at(const struct table *t, struct word *w, uint32_t offset, unsigned b)
{
    unsigned a = w->moves[offset], k;
    const uint8_t *from, *to;
    if (a > t->moves || a == b || cell_of(t, a, b)[0] == BRAID_OPEN) {
        return 0;
    }
    from = cell_of(t, a, b);
    to = cell_of(t, b, a);
    if (!stands(w, offset + 1, from) || w->length + to[0] > w->room + from[0]) {
        return 0;
    }
    make_room(w, offset + 1, from[0], to[0]);
    w->moves[offset] = (uint8_t)b;
    for (k = 0; k < to[0]; k++) {
        w->moves[offset + 1 + k] = to[1 + k];
    }
    return 1;
}

/* A swap at the first place behind a random one where some side stands; 0 where none stands anywhere. */
static int random_swap(struct random *r, const struct table *t, struct word *w, struct entry *entry)
{
    uint32_t i, from = w->length == 0 ? 0 : below(r, w->length);
    unsigned k, shift = below(r, t->moves);
    for (i = 0; i < w->length; i++) {
        entry->offset = (from + i) % w->length;
        entry->a = w->moves[entry->offset];
        for (k = 0; k < t->moves; k++) {
            entry->b = (uint8_t)((k + shift) % t->moves + 1);
            if (swap_at(t, w, entry->offset, entry->b)) {
                return 1;
            }
        }
    }
    return 0;
}

unsigned walk(struct random *r, const struct table *t, struct word *w, unsigned swaps, struct entry *entries)
{
    unsigned count = 0;
    while (count < swaps && random_swap(r, t, w, &entries[count])) {
        count++;
    }
    return count;
}

/* Puts a move and its undoing in at a random place, where there is room. */
static void put_pair(struct random *r, const struct table *t, struct word *w)
{
    uint32_t at = below(r, w->length + 1);
    uint8_t move = signed_move(r, t);
    if (w->length + 2 > w->room) {
        return;
    }
    make_room(w, at, 0, 2);
    w->moves[at] = move;
    w->moves[at + 1] = move ^ BRAID_BACK;
}

/* Takes a move and its undoing out, at the first place behind a random one where they stand side by side. */
static void take_pair(struct random *r, struct word *w)
{
    uint32_t i, at, from = w->length == 0 ? 0 : below(r, w->length);
    for (i = 0; i < w->length; i++) {
        at = (from + i) % w->length;
        if (at + 1 < w->length && w->moves[at] == (w->moves[at + 1] ^ BRAID_BACK)) {
            make_room(w, at, 2, 0);
            return;
        }
    }
}

void signed_walk(struct random *r, const struct table *t, struct word *w, unsigned steps)
{
    struct entry entry;
    for (; steps > 0; steps--) {
        switch (below(r, 4)) {
        case 0: put_pair(r, t, w); break;
        case 1: take_pair(r, w); break;
        default: random_swap(r, t, w, &entry);
        }
    }
}
