/* The programs of a call that is drawn. */
#include "draw.h"

uint32_t draw_length(struct draw *d)
{
    static const uint8_t lengths[] = {0, 1, 1, 2, 2, 3, 3, 4, 4, 5, 6, 8, 10, 12, 16, 25};
    static const uint16_t long_lengths[] = {40, 60, 60, 100, 255, 1000, 4094, 4095};
    if (once_in(d->r, 60)) {
        d->dear = d->is_long = 1;
        return PICK(d->r, long_lengths);
    }
    return PICK(d->r, lengths);
}

void draw_other(struct draw *d)
{
    static const uint8_t swaps[] = {0, 1, 1, 3, 3, 10, 30};
    struct entry entries[SWAPS];
    uint8_t move = (uint8_t)between(d->r, 1, d->table->moves);
    copy_word(&d->second, &d->first);
    walk(d->r, d->table, &d->second, PICK(d->r, swaps), entries);
    switch (below(d->r, 12)) {
    case 0:
        if (d->second.length > 0) {
            d->second.moves[below(d->r, d->second.length)] = move;
        }
        break;
    case 1:
        d->second.length = 0;
        add_forward(d->r, d->table, &d->second, d->first.length);
        break;
    case 2:
        d->second.length = 0;
        add_forward(d->r, d->table, &d->second, below(d->r, d->first.length + 3));
        break;
    case 3: draw_weight(d->r, d->table, &d->second, weight_of(d->table, &d->first)); break;
    default: break;
    }
}

/* Two moves, each repeated, in either order: a b and b a. Where they commute, the steps are as many as the product of both. */
static void draw_runs(struct draw *d)
{
    static const uint16_t times[] = {1, 2, 3, 5, 9, 14};
    static const uint16_t many_times[] = {60, 200, 254, 255, 255, 256};
    unsigned a = between(d->r, 1, d->table->moves), b = between(d->r, 1, d->table->moves), i = PICK(d->r, times), j = PICK(d->r, times), k;
    if (once_in(d->r, 400)) {
        i = j = PICK(d->r, many_times);
        d->dear = d->is_long = 1;
    }
    d->first.length = d->second.length = 0;
    for (k = 0; k < i; k++) {
        append(&d->first, a);
    }
    for (k = 0; k < j; k++) {
        append(&d->first, b);
        append(&d->second, b);
    }
    for (k = 0; k < i; k++) {
        append(&d->second, a);
    }
}

void draw_two(struct draw *d)
{
    if (once_in(d->r, 12)) {
        draw_runs(d);
        return;
    }
    d->first.length = 0;
    add_forward(d->r, d->table, &d->first, draw_length(d));
    draw_other(d);
}

void draw_part_done(struct draw *d)
{
    static const uint8_t more[] = {0, 0, 1, 2, 4, 9};
    static const uint8_t swaps[] = {0, 1, 3, 10, 30};
    struct entry entries[SWAPS];
    draw_two(d);
    switch (below(d->r, 6)) {
    case 0: break;
    case 1: /* all but a few moves of a word that is joined to the pattern */
        copy_word(&d->second, &d->first);
        walk(d->r, d->table, &d->first, PICK(d->r, swaps), entries);
        d->first.length -= d->first.length < 3 ? 0 : below(d->r, 3);
        break;
    case 2: add_forward(d->r, d->table, &d->second, PICK(d->r, more)); break;
    default:
        copy_word(&d->second, &d->first);
        add_forward(d->r, d->table, &d->second, PICK(d->r, more));
        walk(d->r, d->table, &d->second, PICK(d->r, swaps), entries);
    }
}

/* A program to be reversed: of any signs, back moves before forward ones or behind them, or of one sign. */
static void draw_signed(struct draw *d, struct word *w, uint32_t count)
{
    w->length = 0;
    switch (below(d->r, 8)) {
    case 0:
    case 1:
        add_back(d->r, d->table, w, count / 2);
        add_forward(d->r, d->table, w, count - count / 2);
        break;
    case 2:
        add_forward(d->r, d->table, w, count / 2);
        add_back(d->r, d->table, w, count - count / 2);
        break;
    case 3: add_forward(d->r, d->table, w, count); break;
    case 4: add_back(d->r, d->table, w, count); break;
    default: add_signed(d->r, d->table, w, count);
    }
}

void draw_two_signed(struct draw *d)
{
    static const uint8_t steps[] = {0, 1, 2, 4, 8, 16};
    static const uint8_t lengths[] = {0, 1, 1, 2, 2, 3, 4, 6, 8, 12};
    uint32_t count = PICK(d->r, lengths);
    draw_signed(d, &d->first, count);
    copy_word(&d->second, &d->first);
    signed_walk(d->r, d->table, &d->second, PICK(d->r, steps));
    switch (below(d->r, 10)) {
    case 0:
        if (d->second.length > 0) {
            uint8_t *move = d->second.moves + below(d->r, d->second.length);
            *move = (uint8_t)(between(d->r, 1, d->table->moves) + *move / BRAID_BACK * BRAID_BACK);
        }
        break;
    case 1: draw_signed(d, &d->second, count); break;
    case 2: undo(&d->second); break;
    case 3: draw_two(d); break;
    case 4: /* numerator and denominator at once, which often grow against each other */
        d->first.length = d->second.length = 0;
        add_forward(d->r, d->table, &d->second, count);
        add_back(d->r, d->table, &d->second, count);
        break;
    default: break;
    }
}

/* A program alone: few moves, or at times many of which few are back moves, so that an allowance may suffice. */
void draw_one(struct draw *d)
{
    uint32_t count = draw_length(d);
    if (count <= 60 || once_in(d->r, 4)) {
        draw_signed(d, &d->first, count);
        return;
    }
    d->first.length = 0;
    if (once_in(d->r, 2)) {
        add_back(d->r, d->table, &d->first, between(d->r, 1, 9));
        add_forward(d->r, d->table, &d->first, count - d->first.length);
    } else {
        add_forward(d->r, d->table, &d->first, count - between(d->r, 1, 9));
        add_back(d->r, d->table, &d->first, count - d->first.length);
    }
}
