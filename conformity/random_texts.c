/* Random texts for import. A text is written from its start to its end, with a number for how deep its brackets stand, so that nothing recurs. */
#include "random_texts.h"

enum {
    DEEPEST = 8, /* brackets that may be open at once */
    NUMBER = 99, /* the highest number of a text */
    WHOLE = 4095 /* the most moves that a text may mean */
};

struct text {
    uint8_t *at;
    uint32_t length, room;
};

/* PIECES */

static void add_byte(struct text *t, int byte)
{
    if (t->length < t->room) {
        t->at[t->length++] = (uint8_t)byte;
    }
}

static void add_piece(struct text *t, const char *piece)
{
    while (*piece != '\0') {
        add_byte(t, *piece++);
    }
}

static void add_number(struct text *t, unsigned number)
{
    if (number >= 10) {
        add_byte(t, (int)('0' + number / 10));
    }
    add_byte(t, (int)('0' + number % 10));
}

static void add_count(struct text *t, unsigned count)
{
    add_byte(t, '^');
    add_number(t, count);
}

/* A count: mostly none or small. */
static void some_count(struct random *r, struct text *t)
{
    switch (below(r, 12)) {
    case 0: add_count(t, 0); break;
    case 1: add_count(t, 1); break;
    case 2:
    case 3:
    case 4: add_count(t, between(r, 2, 4)); break;
    case 5: add_count(t, between(r, 5, NUMBER)); break;
    default: break;
    }
}

/* What stands before the body of an item: a space where the item is not the first, and a minus once in three. */
static void before_body(struct random *r, struct text *t, int is_first)
{
    if (!is_first) {
        add_byte(t, ' ');
    }
    if (once_in(r, 3)) {
        add_byte(t, '-');
    }
}

static void some_move(struct random *r, struct text *t, unsigned numbers, int is_first)
{
    before_body(r, t, is_first);
    add_number(t, between(r, 1, numbers));
    some_count(r, t);
}

/* PATTERNS: each begins a text, or goes on with one behind a space */

/* At most so many items, with brackets that nest at most so deep. */
static void tree(struct random *r, struct text *t, unsigned numbers, unsigned deepest, unsigned items)
{
    uint32_t has_item = t->length > 0; /* bit d: the pattern that d brackets stand around has one */
    unsigned depth = 0;
    for (; items > 0; items--) {
        if (depth > 0 && once_in(r, 3)) {
            add_byte(t, ')');
            some_count(r, t);
            depth--;
        } else if (depth < deepest && once_in(r, 3)) {
            before_body(r, t, (has_item >> depth) % 2 == 0);
            has_item |= (uint32_t)1 << depth;
            add_byte(t, '(');
            depth++;
            has_item &= ~((uint32_t)1 << depth);
        } else {
            some_move(r, t, numbers, (has_item >> depth) % 2 == 0);
            has_item |= (uint32_t)1 << depth;
        }
    }
    for (; depth > 0; depth--) {
        add_byte(t, ')');
        some_count(r, t);
    }
}

/* Brackets that nest exactly so deep, at one place; small counts keep most of them short. */
static void deep(struct random *r, struct text *t, unsigned numbers, unsigned depth)
{
    int is_first = t->length == 0;
    unsigned k;
    for (k = 0; k < depth; k++) {
        if (once_in(r, 3)) {
            some_move(r, t, numbers, is_first);
            is_first = 0;
        }
        before_body(r, t, is_first);
        add_byte(t, '(');
        is_first = 1;
    }
    if (!once_in(r, 4)) {
        add_number(t, between(r, 1, numbers));
    }
    for (k = 0; k < depth; k++) {
        add_byte(t, ')');
        if (once_in(r, 4)) {
            add_count(t, between(r, 1, 3));
        }
        if (once_in(r, 6)) {
            some_move(r, t, numbers, 0);
        }
    }
}

/* Exactly so many moves: items of one move inside some brackets, whose counts multiply to no more than what is left. */
static void sized(struct random *r, struct text *t, unsigned numbers, uint32_t moves)
{
    while (moves > 0) {
        unsigned counts[DEEPEST + 1], depth = below(r, DEEPEST + 1), k;
        uint32_t share = 1;
        for (k = 0; k <= depth; k++) {
            uint32_t most = moves / share < NUMBER ? moves / share : NUMBER;
            counts[k] = once_in(r, 2) ? most : between(r, 1, most);
            share *= counts[k];
        }
        moves -= share;
        before_body(r, t, t->length == 0);
        for (k = 0; k < depth; k++) {
            add_byte(t, '(');
        }
        add_number(t, between(r, 1, numbers));
        add_count(t, counts[0]);
        for (k = 1; k <= depth; k++) {
            add_byte(t, ')');
            add_count(t, counts[k]);
        }
    }
}

/* Some items of one move inside eight brackets, all with one count: with enough of them, more moves than a number of 64 bits holds. One of the counts may
 * be 0. */
static void tower(struct random *r, struct text *t, unsigned numbers)
{
    static const uint16_t items[] = {0, 1, 1, 20, 21, 22, 40};
    unsigned count = once_in(r, 3) ? 64 : NUMBER, empty = once_in(r, 3) ? below(r, DEEPEST + 1) : DEEPEST + 1, k, many = PICK(r, items);
    before_body(r, t, t->length == 0);
    for (k = 0; k < DEEPEST; k++) {
        add_byte(t, '(');
    }
    for (k = 0; k < many; k++) {
        add_piece(t, k == 0 ? "" : " ");
        add_number(t, between(r, 1, numbers));
        add_count(t, empty == 0 ? 0 : count);
    }
    for (k = 1; k <= DEEPEST; k++) {
        add_byte(t, ')');
        add_count(t, empty == k ? 0 : count);
    }
}

/* A number that the table has no move for, inside some brackets, and under a count of 0 at times. */
static void above(struct random *r, struct text *t, unsigned moves)
{
    unsigned depth = below(r, 3), k;
    add_piece(t, t->length == 0 ? "" : " ");
    for (k = 0; k < depth; k++) {
        add_byte(t, '(');
    }
    add_number(t, once_in(r, 2) ? moves + 1 : between(r, moves + 1, NUMBER));
    for (k = 0; k < depth; k++) {
        add_byte(t, ')');
    }
    add_piece(t, once_in(r, 2) ? "^0" : "");
}

/* Many items that mean little. */
static void many(struct random *r, struct text *t)
{
    static const char *const pieces[] = {"1^0", "()", "-(1)^0", "((1^99)^41)^0", "(() -()^99)"};
    static const uint16_t counts[] = {100, 100, 100, 1000, 17000};
    const char *piece = PICK(r, pieces);
    unsigned k, count = PICK(r, counts);
    for (k = 0; k < count; k++) {
        add_piece(t, t->length == 0 ? "" : " ");
        add_piece(t, piece);
    }
}

/* DAMAGE */

/* Takes some bytes out at a place and puts a piece there, as far as there is room. */
static void replace(struct text *t, uint32_t at, uint32_t taken, const char *piece)
{
    uint32_t put = 0, i;
    while (piece[put] != '\0') {
        put++;
    }
    if (t->length + put > t->room + taken) {
        return;
    }
    if (put > taken) {
        for (i = t->length; i > at + taken; i--) {
            t->at[i - 1 + (put - taken)] = t->at[i - 1];
        }
    } else if (put < taken) {
        for (i = at + taken; i < t->length; i++) {
            t->at[i - (taken - put)] = t->at[i];
        }
    }
    for (i = 0; i < put; i++) {
        t->at[at + i] = (uint8_t)piece[i];
    }
    t->length = t->length + put - taken;
}

/* One byte changed, taken out or put in, or two exchanged. */
static void damage(struct random *r, struct text *t)
{
    static const char bytes[] = " -()^0123456789";
    uint32_t at = below(r, t->length + 1);
    char piece[2] = {0, 0};
    piece[0] = once_in(r, 8) ? (char)between(r, 1, 255) : bytes[below(r, (uint32_t)sizeof bytes - 1)];
    if (at == t->length || once_in(r, 4)) {
        replace(t, at, 0, piece);
    } else if (once_in(r, 3)) {
        replace(t, at, 1, "");
    } else if (once_in(r, 2) && at + 1 < t->length) {
        uint8_t kept = t->at[at];
        t->at[at] = t->at[at + 1];
        t->at[at + 1] = kept;
    } else {
        replace(t, at, 1, piece);
    }
}

/* What stands in a sound text, and what is mostly wrong in its place. */
static void break_rule(struct random *r, struct text *t)
{
    static const struct {
        char sound;
        const char *faulty;
    } faults[] = {{' ', "  "},  {' ', ""},   {' ', "\t"},   {' ', " -"},  {' ', " 0 "}, {'(', "( "},  {'(', "(("},  {'(', "(^2"}, {'(', "-"},  {')', " )"},
                  {')', "))"},  {')', ")1"}, {')', ")("},   {')', ") ^2"}, {'-', "--"}, {'-', "- "},  {'-', "-0"},  {'^', "^^"},  {'^', "^0"}, {'^', "^-"},
                  {'^', "^ "},  {'^', " ^"}, {'^', "^1^"},  {'1', "01"},  {'1', "0"},   {'1', "100"}, {'1', "1^"},  {'1', "1-1"}};
    static const char *const ends[] = {" ", "-", "^", "(", ")", "0", "01", "^2", "()", "1"};
    uint32_t k = below(r, (uint32_t)(sizeof faults / sizeof *faults)), from = below(r, t->length + 1), i;
    const char *end = PICK(r, ends);
    for (i = 0; i < t->length; i++) {
        uint32_t at = (from + i) % t->length;
        if (t->at[at] == (uint8_t)faults[k].sound) {
            replace(t, at, 1, faults[k].faulty);
            return;
        }
    }
    replace(t, once_in(r, 2) ? 0 : t->length, 0, end); /* no place has what this fault takes away */
}

/* So many bytes of a few kinds, some of which make a pattern, or any bytes. */
static void scattered(struct random *r, struct text *t)
{
    static const char *const kinds[] = {" -()^0123456789", " -()^012", "12 ()", "12 -^", "12 "};
    const char *kind = PICK(r, kinds);
    uint32_t length = below(r, 9), bytes = 0;
    int any = once_in(r, 6);
    while (kind[bytes] != '\0') {
        bytes++;
    }
    for (; length > 0; length--) {
        add_byte(t, any ? (int)below(r, 256) : kind[below(r, bytes)]);
    }
}

/* A sound pattern of some family. */
static void pattern(struct random *r, struct text *t, unsigned moves)
{
    static const uint16_t around[] = {4000, 4094, WHOLE, WHOLE, WHOLE + 1, WHOLE + 1, 4097, 5000};
    unsigned deepest;
    switch (below(r, 16)) {
    case 0: break;
    case 1: deep(r, t, moves, between(r, 0, DEEPEST)); break;
    case 2: deep(r, t, moves, DEEPEST); break;
    case 3: deep(r, t, moves, between(r, DEEPEST + 1, DEEPEST + 2)); break;
    case 4: sized(r, t, moves, below(r, once_in(r, 2) ? 300 : 30)); break;
    case 5: sized(r, t, moves, PICK(r, around)); break;
    case 6: tower(r, t, moves); break;
    default:
        deepest = below(r, DEEPEST + 1);
        tree(r, t, moves, deepest, between(r, 1, 12));
    }
}

uint32_t draw_text(struct random *r, unsigned moves, uint8_t *at, uint32_t room)
{
    struct text t = {0, 0, 0};
    t.at = at;
    t.room = room;
    if (once_in(r, 16)) {
        scattered(r, &t);
        return t.length;
    }
    if (once_in(r, 400)) {
        many(r, &t);
    }
    pattern(r, &t, moves);
    if (once_in(r, 8)) {
        above(r, &t, moves);
    }
    if (once_in(r, 6)) {
        tree(r, &t, moves, 2, 3);
    }
    while (once_in(r, 5)) {
        if (once_in(r, 2)) {
            damage(r, &t);
        } else {
            break_rule(r, &t);
        }
    }
    return t.length;
}
