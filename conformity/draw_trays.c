/* The inputs of tray: logs that are joined to the pattern or not, faulty ones among them, and trays that are none. */
#include "draw.h"

/* Writes a log behind what stands in the image: a program, at times one that is refused. */
static void add_log(struct draw *d, int faulty)
{
    uint32_t from = d->image_length, bytes;
    if (faulty && once_in(d->r, 3)) {
        append(&d->second, once_in(d->r, 2) ? 1u + BRAID_BACK : d->table->moves % BRAID_MOST_TABLE_MOVES + 1u);
    }
    add_image_byte(d, 0);
    add_image_byte(d, 0);
    d->image_length += program_image(d->table, &d->second, d->image + d->image_length);
    if (faulty && !once_in(d->r, 3)) {
        damage_image(d, from + 2);
    }
    bytes = d->image_length - from - 2;
    d->image[from] = (uint8_t)(bytes >> 8);
    d->image[from + 1] = (uint8_t)bytes;
}

/* A tray of so many logs, as far as there is room for them. */
static void write_tray(struct draw *d, unsigned logs, unsigned faulty)
{
    uint32_t longest = 2 + (12 + (d->first.room + 1) * 5) / 8 + 16; /* a log, and what damage adds to it */
    d->image_length = 0;
    add_image_byte(d, logs);
    for (; logs > 0 && d->image_length + longest <= d->sizes->image; logs--) {
        if (once_in(d->r, 6)) {
            copy_word(&d->second, &d->first);
        } else {
            draw_other(d);
        }
        add_log(d, below(d->r, 100) < faulty);
    }
}

/* One log of zero bytes, as long as a log can be or as the sizes let it be. */
static void write_long_log(struct draw *d)
{
    uint32_t bytes = d->sizes->image - 3 < 65535 ? d->sizes->image - 3 : 65535, i;
    if (once_in(d->r, 2)) {
        bytes = between(d->r, 256, bytes);
    }
    d->image_length = 0;
    add_image_byte(d, 1);
    add_image_byte(d, bytes >> 8);
    add_image_byte(d, bytes % 256);
    for (i = 0; i < bytes; i++) {
        add_image_byte(d, 0);
    }
}

/* Another number of logs, another length of the first one, or a part cut off. */
static void break_tray(struct draw *d)
{
    static const uint8_t numbers[] = {0, 1, 2, 63, 64, 65, 66, 128, 255};
    uint8_t bit = (uint8_t)(1u << below(d->r, 8));
    switch (below(d->r, 4)) {
    case 0: d->image[0] = PICK(d->r, numbers); break;
    case 1:
        d->image_length = 0;
        add_image_byte(d, PICK(d->r, numbers));
        break;
    case 2:
        if (d->image_length > 2) {
            d->image[1 + once_in(d->r, 2)] ^= bit;
        }
        break;
    default: damage_image(d, 0);
    }
}

void draw_tray(struct draw *d)
{
    static const uint8_t few[] = {0, 1, 1, 2, 2, 3, 3, 4, 5, 6};
    static const uint8_t many[] = {12, 30, 60, 63, 64, 64, 65, 66};
    static const uint8_t of_hundred[] = {0, 0, 20, 50, 100};
    unsigned faulty = PICK(d->r, of_hundred);
    d->first.length = 0;
    add_forward(d->r, d->table, &d->first, draw_length(d));
    hand_table(d);
    if (once_in(d->r, 500)) {
        write_long_log(d);
    } else {
        write_tray(d, once_in(d->r, 40) ? PICK(d->r, many) : PICK(d->r, few), faulty);
    }
    if (once_in(d->r, d->damaged)) {
        break_tray(d);
    }
    hand_whole(d);
    hand_forward(d, &d->first);
}
