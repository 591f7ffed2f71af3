/* Counts the instructions of calls on a bare board. Tables and words are those of tests/speed.sh, made here again from the same random numbers. Each line
 * written is 'step SERVICE MOVES CALLS STEPS FIXED WHOLE REST' or 'clear MOVES WORKSPACE CALLS WHOLE REST', where WHOLE and REST are instructions of all the
 * calls: in 'step' REST is that of the same calls with an allowance of FIXED steps, in 'clear' that of as many calls that return at once. */
#include "board.h"
#include "braid.h"
#include "counter.h"
#include "put.h"

enum { AREA = 32768, MOVES = 4, STEPS = 100000, MOST_CASES = 512, POOL = 65536, CLEARINGS = 250, SMALL_AREA = 256, WORD = 4096 };

struct program {
    const uint8_t *image;
    uint64_t length;
};

/* A call; reverse has only its first program. */
struct one {
    struct program first, second;
    uint16_t allowance;
};

static uint8_t workspace[AREA] __attribute__((aligned(16))), answer[AREA] __attribute__((aligned(16)));
static uint8_t table[BRAID_MOST_TABLE_BYTES], pool[POOL];
static uint64_t table_length, pooled;
static struct one cases[MOST_CASES];
static uint64_t state;

static void stop(const char *why)
{
    put_text("boards/cost/cost.c: ");
    put_text(why);
    put_byte('\n');
    board_exit(1);
}

/* A loop whose instructions are known must have as many by the counter, but for the calls around it and a tick at each end. */
static void try_counter(void)
{
    enum { ROUNDS = 500000, AROUND = 32 };
    const uint64_t begun = counter_now();
    uint64_t spent;
    counter_spend(ROUNDS);
    spent = (counter_now() - begun) * counter_tick;
    if (spent + counter_tick < 2 * ROUNDS || spent > 2 * ROUNDS + AROUND + 2 * counter_tick) {
        stop("the counter does not count instructions: run the emulator with -icount shift=0");
    }
}

/* SplitMix64, from 1 to `most`: tests/second/src/random.rs. */
static uint8_t drawn(unsigned most)
{
    uint64_t z = state += UINT64_C(0x9E3779B97F4A7C15);
    z = (z ^ z >> 30) * UINT64_C(0xBF58476D1CE4E5B9);
    z = (z ^ z >> 27) * UINT64_C(0x94D049BB133111EB);
    return (uint8_t)(1 + (z ^ z >> 31) % most);
}

static void draw_word(uint8_t *word, uint64_t length)
{
    uint64_t i;
    for (i = 0; i < length; i++) {
        word[i] = drawn(MOVES);
    }
}

static uint64_t put_in(uint8_t *to, uint64_t at, const uint8_t *from, uint64_t count)
{
    uint64_t i;
    for (i = 0; i < count; i++) {
        to[at + i] = from[i];
    }
    return at + count;
}

/* The undoing of a word of forward moves. */
static uint64_t put_undoing(uint8_t *to, uint64_t at, const uint8_t *word, uint64_t count)
{
    uint64_t i;
    for (i = 0; i < count; i++) {
        to[at + i] = (uint8_t)(word[count - 1 - i] + BRAID_BACK);
    }
    return at + count;
}

/* The braid table of so many moves (specification 2.4). */
static void take_table(unsigned moves)
{
    static uint8_t plain[BRAID_MOST_PLAIN_BYTES];
    uint64_t values[BRAID_VALUES], at = 0;
    unsigned a, b;
    plain[at++] = (uint8_t)moves;
    for (a = 1; a <= moves; a++) {
        plain[at++] = 1;
    }
    for (a = 1; a <= moves; a++) {
        for (b = a + 1; b <= moves; b++) {
            const unsigned both = b - a == 1;
            plain[at++] = (uint8_t)(1 + both);
            plain[at++] = (uint8_t)b;
            if (both) {
                plain[at++] = (uint8_t)a;
            }
            plain[at++] = (uint8_t)(1 + both);
            plain[at++] = (uint8_t)a;
            if (both) {
                plain[at++] = (uint8_t)b;
            }
        }
    }
    if (braid_pack_table(plain, at, table, sizeof table, values) != BRAID_ANSWER) {
        stop("a braid table is not packed");
    }
    table_length = values[0];
}

static struct program packed(const uint8_t *word, uint64_t length)
{
    struct program program = {pool + pooled, 0};
    uint64_t values[BRAID_VALUES];
    if (braid_pack_program(table, table_length, word, length, pool + pooled, POOL - pooled, values) != BRAID_ANSWER) {
        stop("a program is not packed: make POOL larger");
    }
    program.length = values[0];
    pooled += values[0];
    return program;
}

static uint8_t reverse(const struct one *one, uint16_t allowance, uint64_t *values)
{
    return braid_reverse(table, table_length, one->first.image, one->first.length, allowance, workspace, AREA, answer, AREA, values);
}

static uint8_t compare(const struct one *one, uint16_t allowance, uint64_t *values)
{
    return braid_compare(table, table_length, one->first.image, one->first.length, one->second.image, one->second.length, allowance, workspace, AREA,
                         values);
}

/* A word of which the first half is back and the second forward. */
static void draw_reversed(struct one *one, uint64_t length)
{
    static uint8_t u[WORD], v[WORD], word[WORD];
    draw_word(u, length / 2);
    draw_word(v, length / 2);
    put_in(word, put_undoing(word, 0, u, length / 2), v, length / 2);
    one->first = packed(word, length / 2 * 2);
}

/* Two joined words u (u\v) w and v (v\u) w with as many steps between them as such words have: `joined` of tests/speed.sh. */
static void draw_joined(struct one *one, uint64_t length)
{
    static uint8_t u[WORD], v[WORD], start[2 * WORD], longest[2][WORD];
    uint64_t values[BRAID_VALUES], k, long_first = 0, long_second = 0;
    for (k = 1;; k++) {
        const uint64_t before = pooled;
        struct one both;
        uint8_t result;
        draw_word(u, k);
        draw_word(v, k);
        both.first = packed(start, put_in(start, put_undoing(start, 0, u, k), v, k));
        pooled = before;
        result = reverse(&both, 60000, values);
        if (result != BRAID_ANSWER || k + values[0] > length) {
            break;
        }
        long_first = put_in(longest[0], put_in(longest[0], 0, u, k), answer, values[0]);
        long_second = put_in(longest[1], put_in(longest[1], 0, v, k), answer + values[0], values[1]);
    }
    if (long_first != long_second) {
        stop("two joined words under a braid table are not equally long");
    }
    draw_word(u, length - long_first);
    one->first = packed(longest[0], put_in(longest[0], long_first, u, length - long_first));
    one->second = packed(longest[1], put_in(longest[1], long_second, u, length - long_second));
}

static uint16_t least_clearing(void)
{
    uint64_t values[BRAID_VALUES];
    uint16_t allowance = 0;
    while (braid_clear(table, table_length, allowance, workspace, AREA, values) != BRAID_ANSWER) {
        if (allowance++ == BRAID_MOST_ALLOWANCE) {
            stop("a braid table does not clear");
        }
    }
    return allowance;
}

/* Instructions of all calls, none with more steps than `most`. */
static uint64_t counted(uint8_t (*call)(const struct one *, uint16_t, uint64_t *), unsigned count, uint16_t most)
{
    const uint64_t begun = counter_now();
    uint64_t values[BRAID_VALUES];
    unsigned i;
    for (i = 0; i < count; i++) {
        call(&cases[i], cases[i].allowance < most ? cases[i].allowance : most, values);
    }
    return (counter_now() - begun) * counter_tick;
}

static void put_field(uint64_t number)
{
    put_byte(' ');
    put_number(number);
}

/* The words that are run in turn have STEPS steps together: the last word's allowance is what is left of them. */
static void measure_steps(int comparing, uint64_t length)
{
    uint8_t (*const call)(const struct one *, uint16_t, uint64_t *) = comparing ? compare : reverse;
    const uint16_t fixed = comparing ? least_clearing() : 0;
    uint64_t steps = 0, whole;
    unsigned count = 0;
    pooled = 0;
    state = length;
    while (steps + fixed < STEPS) {
        struct one *const one = &cases[count++];
        uint64_t values[BRAID_VALUES];
        if (count > MOST_CASES) {
            stop("a measure has too many words: make MOST_CASES larger");
        }
        one->allowance = (uint16_t)(STEPS - steps > BRAID_MOST_ALLOWANCE ? BRAID_MOST_ALLOWANCE : STEPS - steps);
        if (comparing) {
            draw_joined(one, length);
        } else {
            draw_reversed(one, length);
        }
        steps += call(one, one->allowance, values) == BRAID_ANSWER ? values[comparing ? 1 : 2] : one->allowance;
    }
    put_text(comparing ? "step compare" : "step reverse");
    put_field(length);
    put_field(count);
    put_field(steps);
    put_field(fixed);
    whole = counted(call, count, BRAID_MOST_ALLOWANCE);
    put_field(whole);
    put_field(counted(call, count, fixed));
    put_byte('\n');
}

typedef uint8_t clearing(const uint8_t *table, uint64_t table_length, uint16_t allowance, uint8_t *workspace, uint64_t workspace_length, uint64_t *values);

__attribute__((noinline)) static uint8_t at_once(const uint8_t *image, uint64_t image_length, uint16_t allowance, uint8_t *room, uint64_t room_length,
                                                 uint64_t *values)
{
    (void)image;
    (void)image_length;
    (void)allowance;
    (void)room;
    (void)room_length;
    (void)values;
    return 0;
}

static uint64_t counted_clearing(clearing *volatile clear, uint64_t room)
{
    const uint64_t begun = counter_now();
    uint64_t values[BRAID_VALUES];
    unsigned i, refused = 0;
    for (i = 0; i < CLEARINGS; i++) {
        refused |= clear(table, table_length, BRAID_MOST_ALLOWANCE, workspace, room, values);
    }
    if (refused) {
        stop("a braid table does not clear");
    }
    return (counter_now() - begun) * counter_tick;
}

static void measure_clearing(unsigned moves, uint64_t room)
{
    take_table(moves);
    put_text("clear");
    put_field(moves);
    put_field(room);
    put_field(CLEARINGS);
    put_field(counted_clearing(braid_clear, room));
    put_field(counted_clearing(at_once, room));
    put_byte('\n');
}

int main(void)
{
    static const uint16_t lengths[] = {50, 500, 4000};
    unsigned i;
    counter_start();
    try_counter();
    take_table(MOVES);
    for (i = 0; i < 6; i++) {
        measure_steps(i >= 3, lengths[i % 3]);
    }
    measure_clearing(3, AREA);
    measure_clearing(3, SMALL_AREA);
    measure_clearing(15, AREA);
    measure_clearing(15, SMALL_AREA);
    board_exit(0);
    return 0;
}
