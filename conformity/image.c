/* The images and plain forms of what was drawn. Moves are written under the names that the table gives them. */
#include "image.h"

void put_field(struct fields *fields, unsigned number, unsigned width)
{
    for (; width > 0; width--, fields->bits++) {
        uint8_t *byte = fields->at + fields->bits / 8;
        if (fields->bits % 8 == 0) {
            *byte = 0;
        }
        *byte |= (uint8_t)((number >> (width - 1)) % 2 << (7 - fields->bits % 8));
    }
}

uint32_t field_bytes(const struct fields *fields)
{
    return (fields->bits + 7) / 8;
}

/* The move of the cells that has a name. */
static unsigned named(const struct table *t, unsigned name)
{
    unsigned m = 1;
    while (t->name[m] != name) {
        m++;
    }
    return m;
}

uint32_t table_image(const struct table *t, uint8_t *at)
{
    struct fields fields = {at, 0};
    unsigned width = braid_move_bits(t->moves), a, b, side, k;
    put_field(&fields, t->moves - 1u, 4);
    for (a = 1; a <= t->moves; a++) {
        put_field(&fields, t->weights[named(t, a)] - 1u, 3);
    }
    for (a = 1; a <= t->moves; a++) {
        for (b = a + 1; b <= t->moves; b++) {
            const uint8_t *cells[2];
            cells[0] = cell_of(t, named(t, a), named(t, b));
            cells[1] = cell_of(t, named(t, b), named(t, a));
            put_field(&fields, cells[0][0] != BRAID_OPEN, 1);
            for (side = 0; side < 2 && cells[0][0] != BRAID_OPEN; side++) {
                put_field(&fields, cells[side][0], 4);
                for (k = 1; k <= cells[side][0]; k++) {
                    put_field(&fields, t->name[cells[side][k]] - 1u, width);
                }
            }
        }
    }
    return field_bytes(&fields);
}

uint32_t plain_table(const struct table *t, uint8_t *at)
{
    unsigned a, b, side, k;
    uint32_t length = 0;
    at[length++] = t->moves;
    for (a = 1; a <= t->moves; a++) {
        at[length++] = t->weights[named(t, a)];
    }
    for (a = 1; a <= t->moves; a++) {
        for (b = a + 1; b <= t->moves; b++) {
            const uint8_t *cells[2];
            cells[0] = cell_of(t, named(t, a), named(t, b));
            cells[1] = cell_of(t, named(t, b), named(t, a));
            if (cells[0][0] == BRAID_OPEN) {
                at[length++] = BRAID_OPEN;
                continue;
            }
            for (side = 0; side < 2; side++) {
                at[length++] = cells[side][0];
                for (k = 1; k <= cells[side][0]; k++) {
                    at[length++] = t->name[cells[side][k]];
                }
            }
        }
    }
    return length;
}

uint32_t program_image(const struct table *t, const struct word *w, uint8_t *at)
{
    struct fields fields = {at, 0};
    unsigned width = braid_move_bits(t->moves);
    uint32_t i;
    put_field(&fields, w->length, 12);
    for (i = 0; i < w->length; i++) {
        put_field(&fields, w->moves[i] / BRAID_BACK, 1);
        put_field(&fields, t->name[w->moves[i] % BRAID_BACK] - 1u, width);
    }
    return field_bytes(&fields);
}

uint32_t plain_program(const struct table *t, const struct word *w, uint8_t *at)
{
    uint32_t i;
    for (i = 0; i < w->length; i++) {
        at[i] = (uint8_t)(t->name[w->moves[i] % BRAID_BACK] + w->moves[i] / BRAID_BACK * BRAID_BACK);
    }
    return w->length;
}

void put_entry(struct fields *fields, const struct table *t, uint32_t offset, unsigned a, unsigned b)
{
    unsigned width = braid_move_bits(t->moves);
    put_field(fields, offset, 15);
    put_field(fields, t->name[a] - 1u, width);
    put_field(fields, t->name[b] - 1u, width);
}

uint32_t chain_image(const struct table *t, const struct entry *entries, unsigned count, uint8_t *at)
{
    struct fields fields = {at, 0};
    unsigned k;
    put_field(&fields, count, 16);
    for (k = 0; k < count; k++) {
        put_entry(&fields, t, entries[k].offset, entries[k].a, entries[k].b);
    }
    return field_bytes(&fields);
}
