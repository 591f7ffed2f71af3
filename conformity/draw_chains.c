/* The inputs of check: a chain of random swaps, at times changed, or one in which a word grows. */
#include "draw.h"

/* Changes an entry, leaves one out or adds one, at times. */
static unsigned change_entries(struct draw *d, struct entry *entries, unsigned count)
{
    unsigned at = below(d->r, count + 1), k;
    switch (below(d->r, 10)) {
    case 0:
        if (at < count) {
            entries[at].offset = once_in(d->r, 2) ? entries[at].offset + 1 : below(d->r, 32768);
        }
        break;
    case 1:
        if (at < count) {
            uint8_t *move = once_in(d->r, 2) ? &entries[at].a : &entries[at].b;
            *move = (uint8_t)between(d->r, 1, d->table->moves);
        }
        break;
    case 2:
        for (k = at; k + 1 < count; k++) {
            entries[k] = entries[k + 1];
        }
        count -= at < count;
        break;
    case 3:
        if (count < SWAPS) {
            for (k = count++; k > at; k--) {
                entries[k] = entries[k - 1];
            }
            entries[at].offset = below(d->r, 20);
            entries[at].a = (uint8_t)between(d->r, 1, d->table->moves);
            entries[at].b = (uint8_t)between(d->r, 1, d->table->moves);
        }
        break;
    default: break;
    }
    return count;
}

/* The moves of a side so many times. */
static void draw_copies(const struct table *t, struct word *w, unsigned a, unsigned b, unsigned copies)
{
    const uint8_t *rest = cell_of(t, a, b);
    unsigned k;
    w->length = 0;
    for (; copies > 0; copies--) {
        append(w, a);
        for (k = 1; k <= rest[0]; k++) {
            append(w, rest[k]);
        }
    }
}

/* Writes a chain that swaps each copy of the side that begins with a, and then, where it goes back, each of them again, from the last to the first. */
static void write_growth(struct draw *d, unsigned a, unsigned b, unsigned copies, int back)
{
    struct fields fields = {0, 0};
    unsigned side = 1u + cell_of(d->table, b, a)[0], k;
    fields.at = d->image;
    put_field(&fields, back ? 2 * copies : copies, 16);
    for (k = 0; k < copies; k++) {
        put_entry(&fields, d->table, k * side, a, b);
    }
    for (k = copies; back && k > 0; k--) {
        put_entry(&fields, d->table, (k - 1) * side, b, a);
    }
    d->image_length = field_bytes(&fields);
}

/* Swaps of many copies of one side for the other, and all back again where the second program would be too long. Words on the way grow far beyond both
 * programs. */
static void draw_growth(struct draw *d)
{
    static const uint16_t many[] = {1, 3, 20, 20, 60, 60, 60, 600, 2100, 4095};
    unsigned a = between(d->r, 1, d->table->moves), b = between(d->r, 1, d->table->moves), copies = PICK(d->r, many);
    int back;
    if (cell_of(d->table, a, b)[0] == BRAID_OPEN) {
        a = b; /* an entry of two equal moves does not fit either */
    }
    while (copies * (1u + cell_of(d->table, a, b)[0]) > d->first.room || 2 + 6 * copies > d->sizes->image) { /* an entry takes at most 23 bits */
        copies /= 2;
    }
    d->is_long = d->is_long || copies > 60;
    d->dear = d->dear || d->is_long;
    back = copies * (1u + cell_of(d->table, b, a)[0]) > d->second.room || once_in(d->r, 2);
    draw_copies(d->table, &d->first, a, b, copies);
    draw_copies(d->table, &d->second, back ? a : b, back ? b : a, copies);
    hand_table(d);
    hand_forward(d, &d->first);
    hand_forward(d, &d->second);
    write_growth(d, a, b, copies, back);
    hand_in(d);
}

void draw_check(struct draw *d)
{
    static const uint8_t swaps[] = {0, 1, 2, 5, 20};
    struct entry entries[SWAPS];
    unsigned count;
    if (once_in(d->r, 100)) {
        draw_growth(d);
        return;
    }
    d->first.length = 0;
    add_forward(d->r, d->table, &d->first, draw_length(d));
    copy_word(&d->second, &d->first);
    count = walk(d->r, d->table, &d->second, PICK(d->r, swaps), entries);
    count = change_entries(d, entries, count);
    if (once_in(d->r, 6)) {
        draw_other(d);
    }
    hand_table(d);
    hand_forward(d, &d->first);
    hand_forward(d, &d->second);
    d->image_length = chain_image(d->table, entries, count, d->image);
    hand_in(d);
}
