/* Following a listed chain, without the library that listed it. */
#include "chain.h"

/* `width` bits of an image from bit `*at` on, the first of highest value; beyond its end they are 0. */
static unsigned bits(const struct place *image, uint64_t *at, unsigned width)
{
    unsigned number = 0;
    for (; width > 0; width--, (*at)++) {
        unsigned byte = *at / 8 < image->length ? image->at[*at / 8] : 0;
        number = number * 2 + (byte >> (7 - *at % 8)) % 2;
    }
    return number;
}

/* The completion of a towards b from a table image that is sound: its length, its moves in `moves`; -1 where the pair is open. */
static int completion(const struct place *table, unsigned a, unsigned b, uint8_t *moves)
{
    unsigned n = braid_table_moves(table->at), w = braid_move_bits(n), x, y, side, i;
    uint64_t at = 4 + 3 * (uint64_t)n;
    for (x = 1; x <= n; x++) {
        for (y = x + 1; y <= n; y++) {
            int wanted = (a == x && b == y) || (a == y && b == x), length = -1;
            if (bits(table, &at, 1) == 0) {
                if (wanted) {
                    return -1;
                }
                continue;
            }
            for (side = 0; side < 2; side++) {
                unsigned count = bits(table, &at, 4);
                int mine = wanted && (side == 0) == (a == x);
                if (!mine) {
                    at += count * w;
                    continue;
                }
                for (i = 0; i < count; i++) {
                    moves[i] = (uint8_t)(bits(table, &at, w) + 1);
                }
                length = (int)count;
            }
            if (wanted) {
                return length;
            }
        }
    }
    return -1;
}

/* Whether a word has a move and then some moves at an offset. */
static int stands(const uint8_t *word, uint64_t length, uint64_t offset, unsigned first, const uint8_t *moves, int count)
{
    int i;
    if (offset >= length || length - offset - 1 < (uint64_t)count || word[offset] != first) {
        return 0;
    }
    for (i = 0; i < count; i++) {
        if (word[offset + 1 + (uint64_t)i] != moves[i]) {
            return 0;
        }
    }
    return 1;
}

/* Puts `young` moves in the place of the `old` ones behind an offset and a move, which becomes b; the length of the new word. */
static uint64_t swapped(uint8_t *word, uint64_t length, uint64_t offset, unsigned b, const uint8_t *to, uint64_t old, uint64_t young)
{
    uint64_t i;
    if (young > old) {
        for (i = length; i > offset + 1 + old; i--) {
            word[i - 1 + (young - old)] = word[i - 1];
        }
    } else if (young < old) {
        for (i = offset + 1 + old; i < length; i++) {
            word[i - (old - young)] = word[i];
        }
    }
    word[offset] = (uint8_t)b;
    for (i = 0; i < young; i++) {
        word[offset + 1 + i] = to[i];
    }
    return length + young - old;
}

int leads(const struct place *table, const struct place *first, const struct place *second, const struct place *chain, uint64_t entries,
          uint8_t *word, uint64_t room)
{
    uint64_t at = 0, in_first = 0, in_second = 0, k, i;
    unsigned n = braid_table_moves(table->at), w = braid_move_bits(n);
    uint64_t length = bits(first, &in_first, 12);
    uint8_t from[BRAID_MOST_COMPLETION], to[BRAID_MOST_COMPLETION];
    if (room < MOST_WORD || bits(chain, &at, 16) != entries) {
        return 0;
    }
    for (i = 0; i < length; i++) {
        word[i] = (uint8_t)(bits(first, &in_first, 1 + w) + 1);
    }
    for (k = 0; k < entries; k++) {
        uint64_t offset = bits(chain, &at, 15);
        unsigned a = bits(chain, &at, w) + 1, b = bits(chain, &at, w) + 1;
        int old = a == b ? -1 : completion(table, a, b, from), young = a == b ? -1 : completion(table, b, a, to);
        if (old < 0 || young < 0 || !stands(word, length, offset, a, from, old) || length + (uint64_t)young > room + (uint64_t)old) {
            return 0;
        }
        length = swapped(word, length, offset, b, to, (uint64_t)old, (uint64_t)young);
    }
    while (at % 8 != 0) {
        if (bits(chain, &at, 1) != 0) {
            return 0;
        }
    }
    if (at / 8 != chain->length || bits(second, &in_second, 12) != length) {
        return 0;
    }
    for (i = 0; i < length; i++) {
        if (bits(second, &in_second, 1 + w) + 1 != word[i]) {
            return 0;
        }
    }
    return 1;
}
