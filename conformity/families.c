/* Families of tables. families.h says what each is. */
#include "families.h"

enum { MOST = BRAID_MOST_TABLE_MOVES, LONGEST = BRAID_MOST_COMPLETION, PAIRS = MOST * (MOST - 1) / 2 };

static unsigned least_of(unsigned a, unsigned b)
{
    return a < b ? a : b;
}

/* CELLS */

const uint8_t *cell_of(const struct table *t, unsigned a, unsigned b)
{
    return t->cells[a - 1][b - 1];
}

static uint8_t *cell(struct table *t, unsigned a, unsigned b)
{
    return t->cells[a - 1][b - 1];
}

static int is_open(const struct table *t, unsigned a, unsigned b)
{
    return cell_of(t, a, b)[0] == BRAID_OPEN;
}

static void set_open(struct table *t, unsigned a, unsigned b)
{
    cell(t, a, b)[0] = BRAID_OPEN;
    cell(t, b, a)[0] = BRAID_OPEN;
}

static void copy_cell(uint8_t *to, const uint8_t *from)
{
    unsigned k;
    for (k = 0; k <= from[0]; k++) {
        to[k] = from[k];
    }
}

/* b a b .. of a length, beginning with b. */
static void alternating(uint8_t *to, unsigned b, unsigned a, unsigned length)
{
    unsigned k;
    to[0] = (uint8_t)length;
    for (k = 0; k < length; k++) {
        to[1 + k] = (uint8_t)(k % 2 == 0 ? b : a);
    }
}

/* a b a .. = b a b .., each side of so many moves; with 0 the pair is open. */
static void alternate(struct table *t, unsigned a, unsigned b, unsigned side)
{
    if (side == 0) {
        set_open(t, a, b);
        return;
    }
    alternating(cell(t, a, b), b, a, side - 1);
    alternating(cell(t, b, a), a, b, side - 1);
}

/* The same move so many times. */
static void repeated(uint8_t *to, unsigned move, unsigned times)
{
    alternating(to, move, move, times);
}

/* Random moves of a block. */
static void random_moves(struct random *r, unsigned first, unsigned last, uint8_t *to, unsigned length)
{
    unsigned k;
    to[0] = (uint8_t)length;
    for (k = 1; k <= length; k++) {
        to[k] = (uint8_t)between(r, first, last);
    }
}

/* The last move of the side that begins with a. */
static unsigned last_move(const struct table *t, unsigned a, unsigned b)
{
    const uint8_t *completion = cell_of(t, a, b);
    return completion[0] == 0 ? a : completion[completion[0]];
}

/* BLOCKS */

void begin(struct table *t)
{
    unsigned a, b;
    t->moves = 0;
    t->dear = 0;
    for (a = 1; a <= MOST; a++) {
        t->weights[a] = 1;
        t->name[a] = (uint8_t)a;
        for (b = 1; b <= MOST; b++) {
            cell(t, a, b)[0] = a == b ? 0 : BRAID_OPEN;
        }
    }
}

unsigned block(struct table *t, unsigned count)
{
    unsigned first = t->moves + 1u;
    t->moves = (uint8_t)least_of(t->moves + count, MOST);
    return first;
}

void commute_with(struct table *t, unsigned last)
{
    unsigned a, b;
    for (a = 1; a <= last; a++) {
        for (b = last + 1; b <= t->moves; b++) {
            alternate(t, a, b, 2);
        }
    }
}

void weigh(struct table *t, unsigned first, unsigned weight)
{
    for (; first <= t->moves; first++) {
        t->weights[first] = (uint8_t)weight;
    }
}

void weigh_some(struct random *r, struct table *t, unsigned first)
{
    unsigned most = 1;
    switch (below(r, 8)) {
    case 0: weigh(t, first, between(r, 1, 8)); return;
    case 1: most = 2; break;
    case 2: most = 8; break;
    default: break;
    }
    for (; first <= t->moves; first++) {
        t->weights[first] = (uint8_t)between(r, 1, most);
    }
}

/* FAMILIES: each adds a block */

void neighbours(struct table *t, unsigned count, unsigned length)
{
    unsigned first = block(t, count), a, b;
    for (a = first; a <= t->moves; a++) {
        for (b = a + 1; b <= t->moves; b++) {
            alternate(t, a, b, b - a == 1 ? length : 2);
        }
    }
}

void braid(struct table *t, unsigned count)
{
    neighbours(t, count, 3);
}

void folded(struct table *t, unsigned count)
{
    unsigned first = t->moves + 1u;
    braid(t, count);
    if (first < t->moves) {
        alternate(t, first, first + 1, 4);
    }
}

void partly_commuting(struct random *r, struct table *t, unsigned count, unsigned open)
{
    unsigned first = block(t, count), a, b;
    for (a = first; a <= t->moves; a++) {
        for (b = a + 1; b <= t->moves; b++) {
            alternate(t, a, b, once_in(r, open) ? 0 : 2);
        }
    }
}

void endless(struct table *t, unsigned count)
{
    unsigned first = block(t, count), a, b;
    for (a = first; a <= t->moves; a++) {
        for (b = a + 1; b <= t->moves; b++) {
            alternate(t, a, b, 3);
        }
    }
}

void artin(struct random *r, struct table *t, unsigned count)
{
    static const uint8_t open_of_hundred[] = {0, 0, 10, 50};
    unsigned longest = between(r, 2, 5), open = PICK(r, open_of_hundred), first = block(t, count), a, b;
    weigh_some(r, t, first);
    for (a = first; a <= t->moves; a++) {
        for (b = a + 1; b <= t->moves; b++) {
            unsigned side = once_in(r, 2) ? 2 : between(r, 2, longest);
            if (t->weights[a] != t->weights[b]) {
                side -= side % 2;
            }
            alternate(t, a, b, below(r, 100) < open ? 0 : side);
        }
    }
}

/* The side that begins with a is the same in each of its relations in a block. */
static void complete_alike(struct table *t, unsigned first, unsigned a, const uint8_t *rest)
{
    unsigned b;
    for (b = first; b <= t->moves; b++) {
        if (b != a) {
            copy_cell(cell(t, a, b), rest);
        }
    }
}

void powers(struct random *r, struct table *t, unsigned count)
{
    static const uint8_t weights[] = {1, 1, 1, 4, 6, 8};
    unsigned exponent = between(r, 1, 6), whole = PICK(r, weights), first = block(t, count), a;
    for (a = first; a <= t->moves; a++) {
        uint8_t rest[1 + LONGEST];
        unsigned weight = between(r, 1, whole);
        if (whole % weight != 0) {
            weight = 1;
        }
        t->weights[a] = (uint8_t)weight;
        repeated(rest, a, (whole == 1 ? exponent : whole / weight) - 1);
        complete_alike(t, first, a, rest);
    }
}

void cyclic(struct table *t, unsigned count)
{
    unsigned first = block(t, count), a;
    for (a = first; a <= t->moves; a++) {
        uint8_t rest[2];
        repeated(rest, a == t->moves ? first : a + 1, 1);
        complete_alike(t, first, a, rest);
    }
}

void whole(struct random *r, struct table *t, unsigned count)
{
    static const uint8_t lengths[] = {0, 0, 0, 1, 2};
    unsigned before = PICK(r, lengths), first = block(t, count), a, k;
    uint8_t ends[MOST + 1];
    for (a = first; a <= t->moves; a++) {
        ends[a] = (uint8_t)a;
    }
    for (a = t->moves; a > first; a--) { /* an exchange with one before it, never with itself, leaves one cycle */
        uint8_t kept = ends[a];
        k = first + below(r, a - first);
        ends[a] = ends[k];
        ends[k] = kept;
    }
    weigh_some(r, t, first);
    for (a = first; a <= t->moves; a++) {
        uint8_t rest[1 + LONGEST];
        random_moves(r, first, t->moves, rest, before + 1);
        rest[before + 1] = ends[a];
        complete_alike(t, first, a, rest);
    }
}

void multiple(struct table *t, unsigned power)
{
    unsigned one = block(t, 2);
    repeated(cell(t, one, one + 1), one, power - 1);
    cell(t, one + 1, one)[0] = 0;
    t->weights[one + 1] = (uint8_t)power;
}

void growing(struct random *r, struct table *t)
{
    unsigned one = t->moves + 1u, power = between(r, 1, 8);
    multiple(t, power);
    block(t, 1);
    alternate(t, one, one + 2, 2);
    repeated(cell(t, one + 1, one + 2), one + 2, 1);
    repeated(cell(t, one + 2, one + 1), one, power);
    t->weights[one + 2] = (uint8_t)between(r, 1, 8);
}

void twins(struct random *r, struct table *t)
{
    unsigned one = block(t, 4), a, b;
    for (a = one; a <= t->moves; a++) {
        for (b = a + 1; b <= t->moves; b++) {
            alternate(t, a, b, b - a == 2 ? 1 : 2);
        }
    }
    for (a = one; a < one + 2 && a + 2 <= t->moves; a++) {
        t->weights[a] = (uint8_t)between(r, 1, 8);
        t->weights[a + 2] = t->weights[a];
    }
}

/* Random moves of a block that weigh so much together; 0 where there are none, or too many for a completion. */
static int moves_of_weight(struct random *r, const struct table *t, unsigned first, unsigned weight, uint8_t *to)
{
    unsigned length = 0, m, light, chosen;
    while (weight > 0) {
        for (light = 0, m = first; m <= t->moves; m++) {
            light += t->weights[m] <= weight;
        }
        if (light == 0 || length == LONGEST) {
            return 0;
        }
        chosen = below(r, light);
        for (m = first; t->weights[m] > weight || chosen > 0; m++) {
            chosen -= t->weights[m] <= weight;
        }
        weight -= t->weights[m];
        to[++length] = (uint8_t)m;
    }
    to[0] = (uint8_t)length;
    return 1;
}

static unsigned weight_of_cell(const struct table *t, const uint8_t *moves)
{
    unsigned weight = 0, k;
    for (k = 1; k <= moves[0]; k++) {
        weight += t->weights[moves[k]];
    }
    return weight;
}

void arbitrary(struct random *r, struct table *t, unsigned first, unsigned longest, unsigned open, enum equal equal)
{
    unsigned a, b, weight, less;
    for (a = first; a <= t->moves; a++) {
        for (b = a + 1; b <= t->moves; b++) {
            if (below(r, 100) < open) {
                continue;
            }
            random_moves(r, first, t->moves, cell(t, a, b), between(r, 0, longest));
            random_moves(r, first, t->moves, cell(t, b, a), between(r, 0, longest));
            if (equal == NOTHING) {
                continue;
            }
            weight = weight_of_cell(t, cell_of(t, a, b)) + (equal == SIDES ? t->weights[a] : 0u);
            less = equal == SIDES ? t->weights[b] : 0u;
            if (weight < less || !moves_of_weight(r, t, first, weight - less, cell(t, b, a))) {
                set_open(t, a, b);
            }
        }
    }
}

void single(struct random *r, struct table *t)
{
    unsigned first = block(t, 2), longest = between(r, 0, 3);
    t->weights[first] = (uint8_t)between(r, 1, 3);
    t->weights[first + 1] = (uint8_t)between(r, 1, 3);
    arbitrary(r, t, first, longest, 0, SIDES);
}

void lay_plain(struct table *t, const uint8_t *plain)
{
    unsigned count = *plain++, shift = block(t, count) - 1, a, b, side, k;
    for (a = 1; a <= count; a++) {
        t->weights[shift + a] = *plain++;
    }
    for (a = 1; a <= count; a++) {
        for (b = a + 1; b <= count; b++) {
            if (*plain == BRAID_OPEN) {
                plain++;
                continue;
            }
            for (side = 0; side < 2; side++) {
                uint8_t *to = side == 0 ? cell(t, shift + a, shift + b) : cell(t, shift + b, shift + a);
                to[0] = *plain++;
                for (k = 1; k <= to[0]; k++) {
                    to[k] = (uint8_t)(*plain++ + shift);
                }
            }
        }
    }
}

/* MIRRORS */

/* The side that begins with a, without its last move, read backward. */
static void backward(const struct table *t, unsigned a, unsigned b, uint8_t *to)
{
    const uint8_t *completion = cell_of(t, a, b);
    unsigned length = completion[0], k;
    to[0] = (uint8_t)length;
    for (k = 1; k <= length; k++) {
        to[k] = k == length ? (uint8_t)a : completion[length - k];
    }
}

void turn(struct table *t, struct table *spare)
{
    unsigned a, b;
    begin(spare);
    block(spare, t->moves);
    spare->dear = t->dear;
    for (a = 1; a <= t->moves; a++) {
        spare->weights[a] = t->weights[a];
        for (b = a + 1; b <= t->moves; b++) {
            unsigned p, q;
            if (is_open(t, a, b)) {
                continue;
            }
            p = last_move(t, a, b);
            q = last_move(t, b, a);
            if (p == q || !is_open(spare, p, q)) {
                return;
            }
            backward(t, a, b, cell(spare, p, q));
            backward(t, b, a, cell(spare, q, p));
        }
    }
    *t = *spare;
}

/* Random moves that end in a given one; where there is none, the side ends in the move that it begins with. */
static void ending(struct random *r, const struct table *t, uint8_t *to, unsigned length, unsigned last)
{
    random_moves(r, 1, t->moves, to, length);
    if (length > 0) {
        to[length] = (uint8_t)last;
    }
}

static void exchange(uint8_t *one, uint8_t *two)
{
    uint8_t kept = *one;
    *one = *two;
    *two = kept;
}

void ended(struct random *r, struct table *t, unsigned moves, unsigned longest, unsigned open, int level)
{
    uint8_t ends[PAIRS][2];
    unsigned a, b, pairs = 0, k;
    begin(t);
    block(t, moves);
    for (a = 1; a <= moves; a++) {
        for (b = a + 1; b <= moves; b++) {
            int turned = once_in(r, 2);
            ends[pairs][turned] = (uint8_t)a;
            ends[pairs++][!turned] = (uint8_t)b;
        }
    }
    for (a = 1; a <= moves; a++) {
        for (b = a + 1; b <= moves; b++) {
            unsigned p, q, u, v;
            k = below(r, pairs--); /* the last pair of moves takes the place of the one that is used */
            p = ends[k][0];
            q = ends[k][1];
            exchange(&ends[k][0], &ends[pairs][0]);
            exchange(&ends[k][1], &ends[pairs][1]);
            u = between(r, a != p, longest);
            v = between(r, b != q, longest);
            if (level) {
                u = v = u > v ? u : v;
            }
            if (below(r, 100) >= open) {
                ending(r, t, cell(t, a, b), u, p);
                ending(r, t, cell(t, b, a), v, q);
            }
        }
    }
    if (!level) {
        weigh_some(r, t, 1);
    }
}

/* Puts one more move at the end of a completion, or another one in the place of its last. */
static void end_in(struct table *t, unsigned a, unsigned b, unsigned last)
{
    uint8_t *completion = cell(t, a, b);
    completion[0] = (uint8_t)(least_of(completion[0], LONGEST - 1) + 1);
    completion[completion[0]] = (uint8_t)last;
}

void mirrorless(struct random *r, struct table *t, unsigned moves)
{
    static const uint8_t lengths[] = {1, 2, 2, 3, 15};
    static const uint8_t open_of_hundred[] = {0, 0, 30};
    unsigned longest = PICK(r, lengths), open = PICK(r, open_of_hundred), a, b, count = 0, k, other, fault;
    uint8_t closed[PAIRS][2];
    ended(r, t, moves < 3 ? 3 : moves, longest, open, once_in(r, 2));
    for (a = 1; a <= t->moves; a++) {
        for (b = a + 1; b <= t->moves; b++) {
            if (!is_open(t, a, b)) {
                closed[count][0] = (uint8_t)a;
                closed[count++][1] = (uint8_t)b;
            }
        }
    }
    if (count < 2) { /* 1 2 = 2 2: both sides end in 2 */
        begin(t);
        block(t, 2);
        repeated(cell(t, 1, 2), 2, 1);
        repeated(cell(t, 2, 1), 2, 1);
        return;
    }
    fault = below(r, 8);
    k = below(r, count);
    a = closed[k][0];
    b = closed[k][1];
    if (fault < 5) {
        int crossed = once_in(r, 2);
        unsigned c, d;
        other = (k + between(r, 1, count - 1)) % count;
        c = closed[other][crossed];
        d = closed[other][!crossed];
        end_in(t, a, b, last_move(t, c, d));
        end_in(t, b, a, last_move(t, d, c));
    }
    if (fault >= 4) {
        unsigned last = between(r, 1, t->moves);
        k = below(r, count);
        end_in(t, closed[k][0], closed[k][1], last);
        end_in(t, closed[k][1], closed[k][0], last);
    }
}

/* CHANGES */

void change_one(struct random *r, struct table *t)
{
    unsigned a = between(r, 1, t->moves - 1u), b = between(r, a + 1, t->moves), move;
    uint8_t *changed = once_in(r, 2) ? cell(t, a, b) : cell(t, b, a);
    move = between(r, 1, t->moves);
    switch (below(r, 4)) {
    case 0: changed[0]--; break;
    case 1: changed[++changed[0]] = (uint8_t)move; break;
    case 2: changed[between(r, 1, changed[0])] = (uint8_t)move; break;
    default: set_open(t, a, b);
    }
}

void number_anew(struct random *r, struct table *t)
{
    unsigned a;
    for (a = t->moves; a > 1; a--) {
        exchange(&t->name[a], &t->name[between(r, 1, a)]);
    }
}
