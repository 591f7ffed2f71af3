/* The numbers of a call that is drawn, and the lengths of its areas: wide, small, or around the place where the outcome changes. */
#include "draw.h"

enum {
    STEPS = 600,  /* an allowance that mostly suffices */
    BYTES = 600,  /* a workspace that mostly suffices */
    ANSWER = 1500 /* an answer area that mostly suffices */
};

static uint64_t *limit_of(struct call *c, char key)
{
    return key == 'A' ? &c->allowance : key == 'W' ? &c->workspace.length : &c->answer.length;
}

/* The most that a limit may be. */
static uint64_t most_of(const struct draw *d, char key)
{
    return key == 'A' ? BRAID_MOST_ALLOWANCE : d->sizes->area;
}

static void set_limit(struct draw *d, char key, uint64_t limit)
{
    *limit_of(d->call, key) = limit < most_of(d, key) ? limit : most_of(d, key);
}

/* An answer area that mostly suffices. */
static uint64_t wide_answer(struct draw *d)
{
    switch (d->call->kind) {
    case CALL_WAYS: return between(d->r, 100, 500);
    case CALL_IMPORT: return once_in(d->r, 3) ? 4200 : 300;
    default: return ANSWER;
    }
}

/* A limit that mostly suffices, at times a very wide one. */
static uint64_t wide(struct draw *d, char key)
{
    static const uint32_t allowances[] = {65535, 65535, 65534, 32768, 20000, 5000};
    static const uint32_t bytes[] = {32768, 32768, 8192, 8190, 4095, 4200};
    static const uint32_t of_chains[] = {188416, 150000, 32768};
    if (d->is_long && key == 'R' && d->call->kind == CALL_CHAIN) {
        return PICK(d->r, of_chains);
    }
    if (d->is_long || once_in(d->r, 100)) {
        return key == 'A' ? PICK(d->r, allowances) : PICK(d->r, bytes);
    }
    if (key == 'W' && d->dear && d->call->kind == CALL_COMPARE_SIGNED) {
        return 5 * BYTES; /* for the largest set */
    }
    return key == 'A' ? STEPS : key == 'W' ? BYTES : wide_answer(d);
}

static uint64_t draw_small(struct draw *d)
{
    static const uint16_t most[] = {1, 2, 4, 8, 16, 16, 30, 80, 300};
    return below(d->r, PICK(d->r, most) + 1u);
}

/* Asks, and folds all that was told into one number: other outcomes have, but for chance, other numbers. */
static uint64_t asked(struct draw *d)
{
    struct call *c = d->call;
    uint64_t sum, i;
    d->ask(c);
    sum = c->result + 1u;
    for (i = 1; i <= BRAID_VALUES; i++) {
        sum = sum * 0x100000001B3u + c->told[i];
    }
    for (i = 0; c->kind == CALL_TRAY && c->result == BRAID_ANSWER && i < BRAID_LOG_BYTES * c->told[1]; i++) {
        sum = sum * 0x100000001B3u + c->answer.at[i];
    }
    return sum;
}

/* Sets one limit where the outcome changes, the others being as they are: there, one below or one above. Of several such places one is met by halving. */
static void sharpen(struct draw *d, char key)
{
    uint64_t low = 0, high = *limit_of(d->call, key), at_low, at_high;
    set_limit(d, key, low);
    at_low = asked(d);
    set_limit(d, key, high);
    at_high = asked(d);
    if (at_low == at_high) {
        set_limit(d, key, once_in(d->r, 2) ? draw_small(d) : high);
        return;
    }
    while (high - low > 1) {
        uint64_t middle = low + (high - low) / 2, at_middle;
        set_limit(d, key, middle);
        at_middle = asked(d);
        if (at_middle == at_low || (at_middle != at_high && once_in(d->r, 2))) {
            low = middle;
            at_low = at_middle;
        } else {
            high = middle;
            at_high = at_middle;
        }
    }
    switch (below(d->r, 8)) {
    case 0: set_limit(d, key, high + 1); break;
    case 1:
    case 2:
    case 3: set_limit(d, key, high); break;
    default: set_limit(d, key, low);
    }
}

/* The numbers of commit: those of the reversing, if they are asked for, or others near them or far from them. */
static void draw_numbers(struct draw *d)
{
    static const uint64_t more[] = {1, 1, (uint64_t)-1, (uint64_t)-1, 1 << 8, 1 << 16, (uint64_t)1 << 32, (uint64_t)1 << 63};
    struct call *c = d->call;
    unsigned at = below(d->r, 3), k;
    c->numbers[0] = d->first.length;
    if (d->ask && !d->dear) {
        c->kind = CALL_ENQUIRE;
        d->ask(c);
        c->kind = CALL_COMMIT;
        for (k = 0; k < 3; k++) {
            c->numbers[k] = c->told[1 + k];
        }
    }
    switch (below(d->r, 10)) {
    case 0: c->numbers[at] += PICK(d->r, more); break;
    case 1: {
        uint64_t kept = c->numbers[0];
        c->numbers[0] = c->numbers[1];
        c->numbers[1] = kept;
        break;
    }
    case 2:
        c->numbers[0]++;
        c->numbers[1]--;
        break;
    case 3:
        c->numbers[at] = random_bits(d->r);
        c->numbers[at] >>= below(d->r, 64);
        break;
    case 4:
        for (k = 0; k < 3; k++) {
            c->numbers[k] = draw_small(d);
        }
        break;
    default: break;
    }
}

static void draw_moves(struct draw *d)
{
    static const uint64_t moves[] = {255, 256, 65535, 65536, (uint64_t)1 << 32, UINT64_MAX};
    d->call->moves = once_in(d->r, 6) ? PICK(d->r, moves) : below(d->r, d->first.length + 3);
}

/* Narrows one of the limits that the call has. */
static void narrow(struct draw *d)
{
    char keys[3];
    unsigned count = 0;
    const char *key;
    for (key = call_kinds[d->call->kind].keys; *key != '\0'; key++) {
        if (*key == 'A' || *key == 'W' || *key == 'R') {
            keys[count++] = *key;
        }
    }
    key = keys + below(d->r, count);
    if (d->ask && !d->dear && once_in(d->r, 2)) {
        sharpen(d, *key);
    } else {
        set_limit(d, *key, draw_small(d));
    }
}

void draw_limits(struct draw *d)
{
    const char *key;
    for (key = call_kinds[d->call->kind].keys; *key != '\0'; key++) {
        if (*key == 'A' || *key == 'W' || *key == 'R') {
            set_limit(d, *key, wide(d, *key));
        }
    }
    if (takes(d->call->kind, 'M')) {
        draw_moves(d);
    }
    if (takes(d->call->kind, 'N')) {
        draw_numbers(d);
    }
    if (!once_in(d->r, 3)) {
        narrow(d);
        if (once_in(d->r, 4)) {
            narrow(d);
        }
    }
}
