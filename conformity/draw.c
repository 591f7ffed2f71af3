/* The images of a call that is drawn, whole or damaged. */
#include "draw.h"

void add_image_byte(struct draw *d, unsigned byte)
{
    if (d->image_length < d->sizes->image) {
        d->image[d->image_length++] = (uint8_t)byte;
    }
}

static void random_bytes(struct draw *d, unsigned count)
{
    for (; count > 0; count--) {
        add_image_byte(d, below(d->r, 256));
    }
}

void damage_image(struct draw *d, uint32_t from)
{
    uint32_t length = d->image_length - from;
    uint8_t bit = (uint8_t)(1u << below(d->r, 8));
    switch (below(d->r, 8)) {
    case 0:
    case 1:
        if (length > 0) {
            d->image[from + below(d->r, length)] ^= bit;
        }
        break;
    case 2:
        if (length > 0) {
            d->image[d->image_length - 1] ^= bit;
        }
        break;
    case 3: d->image_length = from + below(d->r, length + 1); break;
    case 4: d->image_length -= length > 0; break;
    case 5: add_image_byte(d, 0); break;
    case 6: random_bytes(d, between(d->r, 1, 9)); break;
    default:
        d->image_length = from;
        random_bytes(d, below(d->r, 12));
    }
}

void hand_whole(struct draw *d)
{
    struct place place = lend(d->memory, d->image_length);
    uint32_t i;
    if (place.at == 0) {
        d->full = 1;
        return;
    }
    for (i = 0; i < d->image_length; i++) {
        place.at[i] = d->image[i];
    }
    d->call->images[d->call->image_count++] = place;
}

void hand_in(struct draw *d)
{
    if (once_in(d->r, d->damaged)) {
        damage_image(d, 0);
    }
    hand_whole(d);
}

/* The number behind the last move: where the width of a move field has room for it, a field that holds it names no move. */
static uint8_t no_move(const struct draw *d)
{
    return (uint8_t)(d->table->moves % BRAID_MOST_TABLE_MOVES + 1);
}

void hand_table(struct draw *d)
{
    unsigned a = below(d->r, d->table->moves), b = below(d->r, d->table->moves);
    uint8_t *cell = d->table->cells[a][b];
    if (cell[0] > 0 && cell[0] < BRAID_OPEN && once_in(d->r, 2 * d->damaged)) {
        uint8_t *move = cell + between(d->r, 1, cell[0]), kept = *move;
        *move = no_move(d);
        d->image_length = table_image(d->table, d->image);
        *move = kept;
    } else {
        d->image_length = table_image(d->table, d->image);
    }
    hand_in(d);
}

void hand_program(struct draw *d, const struct word *w)
{
    if (w->length > 0 && once_in(d->r, 2 * d->damaged)) {
        w->moves[below(d->r, w->length)] = no_move(d);
    }
    d->image_length = program_image(d->table, w, d->image);
    hand_in(d);
}

void hand_forward(struct draw *d, struct word *w)
{
    if (w->length > 0 && once_in(d->r, 3 * d->damaged / 2)) {
        w->moves[below(d->r, w->length)] ^= BRAID_BACK;
    }
    hand_program(d, w);
}
