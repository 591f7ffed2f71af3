/*
 * What the header says of sizes and of stack, held against the library: each call runs on a stack of its own that is painted before, and the
 * longest forms are packed, and the largest tray of logs that can be read is compared. Then texts of some megabytes are imported, whose time must be in
 * proportion to their bytes. The last line is 'N passed, M failed'.
 */
#define _XOPEN_SOURCE 700
#include "braid.h"

#include <stdio.h>
#include <string.h>
#include <time.h>
#include <ucontext.h>
#include <unistd.h>

enum { PAINT = 0xA5, STACK = 65536, AREA = 200000, TEXT = 4194304, SLOWER = 20, MOST_SECONDS = 300 };

static uint8_t stack[STACK], workspace[AREA], answer[AREA], plain[AREA], table[AREA], program[AREA], chain[AREA];
static uint8_t text[TEXT];
static uint64_t values[BRAID_VALUES], sizes[BRAID_VALUES];
static size_t table_length, program_length, chain_length, plain_length, answer_length, text_length;
static uint8_t result;
static int passed, failed;
static ucontext_t here, there;

static void hold(const char *name, int holds)
{
    if (holds) {
        passed++;
    } else {
        failed++;
        printf("failed: %s; result %d, values %llu %llu\n", name, result, (unsigned long long)values[0], (unsigned long long)values[1]);
    }
}

/* Runs a call on the painted stack; the bytes that it used. */
static size_t depth(void (*call)(void))
{
    size_t low = 0;
    memset(stack, PAINT, sizeof stack);
    getcontext(&there);
    there.uc_stack.ss_sp = stack;
    there.uc_stack.ss_size = sizeof stack;
    there.uc_link = &here;
    makecontext(&there, call, 0);
    swapcontext(&here, &there);
    while (low < sizeof stack && stack[low] == PAINT) {
        low++;
    }
    return sizeof stack - low;
}

/* A plain table of n moves of the greatest weight, each pair with two completions of so many moves. */
static void fill_table(uint8_t n, uint8_t moves)
{
    unsigned pair, i;
    plain_length = 0;
    plain[plain_length++] = n;
    memset(plain + plain_length, BRAID_MOST_WEIGHT, n);
    plain_length += n;
    for (pair = 0; pair < n * (n - 1u) / 2; pair++) {
        for (i = 0; i < 2; i++) {
            plain[plain_length++] = moves;
            memset(plain + plain_length, 1, moves);
            plain_length += moves;
        }
    }
}

static void pack_table(void) { result = braid_pack_table(plain, plain_length, table, AREA, values); }
static void unpack_table(void) { result = braid_unpack_table(table, table_length, answer, AREA, values); }
static void pack_program(void) { result = braid_pack_program(table, table_length, plain, plain_length, program, AREA, values); }
static void unpack_program(void) { result = braid_unpack_program(table, table_length, program, program_length, answer, AREA, values); }
static void reverse(void) { result = braid_reverse(table, table_length, program, program_length, 65535, workspace, AREA, answer, AREA, values); }
static void enquire(void) { result = braid_enquire(table, table_length, program, program_length, 65535, workspace, AREA, values); }
static void commit(void)
{
    result = braid_commit(table, table_length, program, program_length, 65535, sizes[0], sizes[1], sizes[2], workspace, AREA, answer, answer_length, values);
}
static void clear(void) { result = braid_clear(table, table_length, 65535, workspace, AREA, values); }
static void left_reverse(void)
{
    result = braid_left_reverse(table, table_length, program, program_length, 65535, workspace, AREA, answer, AREA, values);
}
static void mirror_clear(void) { result = braid_mirror_clear(table, table_length, 65535, workspace, AREA, values); }
static void compare(void)
{
    result = braid_compare(table, table_length, program, program_length, answer, program_length, 65535, workspace, AREA, values);
}
static void compare_signed(void)
{
    result = braid_compare_signed(table, table_length, program, program_length, answer, program_length, 65535, workspace, AREA, values);
}
static void list(void)
{
    result = braid_chain(table, table_length, program, program_length, answer, program_length, 65535, workspace, AREA, chain, chain_length, values);
}
static void remains(void)
{
    result = braid_remainder(table, table_length, program, program_length, answer, program_length, 65535, workspace, AREA, plain, AREA, values);
}
static void tray(void)
{
    result = braid_tray(table, table_length, text, text_length, program, program_length, 65535, workspace, AREA, answer, answer_length, values);
}
static void check(void)
{
    result = braid_check(table, table_length, program, program_length, answer, program_length, chain, chain_length, workspace, 3, values);
}

static void show(void) { result = braid_bed(table, table_length, program, program_length, UINT64_MAX, answer, answer_length, values); }

static void ways(void) { result = braid_ways(table, table_length, program, program_length, answer, answer_length, values); }

static void import(void) { result = braid_import(table, table_length, text, text_length, answer, answer_length, values); }

/* The call answers, and its stack suffices. */
static void answers(const char *name, void (*call)(void))
{
    size_t used = depth(call);
    printf("%s: %u bytes of stack\n", name, (unsigned)used);
    hold(name, result == BRAID_ANSWER && used <= BRAID_STACK);
}

static void longest_forms(void)
{
    fill_table(BRAID_MOST_TABLE_MOVES, BRAID_MOST_COMPLETION);
    answers("pack the longest table", pack_table);
    table_length = (size_t)values[0];
    hold("the longest table image", table_length == BRAID_MOST_TABLE_BYTES && plain_length == BRAID_MOST_PLAIN_BYTES);
    answers("unpack it", unpack_table);
    hold("its plain form", values[0] == BRAID_MOST_PLAIN_BYTES && memcmp(answer, plain, plain_length) == 0);
    memset(plain, BRAID_MOST_TABLE_MOVES + BRAID_BACK, AREA);
    plain_length = BRAID_MOST_MOVES;
    answers("pack the longest program", pack_program);
    program_length = (size_t)values[0];
    hold("the longest program image", program_length == BRAID_MOST_PROGRAM_BYTES);
    answers("unpack it", unpack_program);
    hold("its plain form", values[0] == BRAID_MOST_MOVES && memcmp(answer, plain, BRAID_MOST_MOVES) == 0);
    plain_length = BRAID_MOST_MOVES + 1;
    pack_program();
    hold("a move too many", result == BRAID_IMAGE_ENDS);
    fill_table(BRAID_MOST_TABLE_MOVES + 1, 0);
    pack_table();
    hold("a table with a move too many", result == BRAID_TABLE_FIELD);
    fill_table(2, BRAID_MOST_COMPLETION + 1);
    pack_table();
    hold("a completion with a move too many", result == BRAID_TABLE_FIELD);
    fill_table(2, 0);
    plain[3] = BRAID_OPEN;
    plain_length = 4;
    pack_table();
    hold("an open pair", result == BRAID_ANSWER && values[0] == 2 && table[0] == 0x1F && table[1] == 0xC0);
    plain[2] = BRAID_MOST_WEIGHT + 1;
    pack_table();
    hold("a move too heavy", result == BRAID_TABLE_FIELD);
}

static void engine(void)
{
    static const uint8_t braid3[] = {0x20, 0x04, 0x90, 0x86, 0x30, 0x92, 0x92, 0x60}, one[] = {0x00, 0x30, 0x40}, two[] = {0x00, 0x32, 0x08};
    static const uint8_t turned[] = {0x00, 0x21, 0x40}, signs[] = {0x00, 0x5C, 0x28, 0x20};
    static const uint8_t back_last[] = {0x00, 0x30, 0x60}, back_first[] = {0x00, 0x3A, 0x08};
    size_t needed = braid_chain_bytes(3, 1);
    memcpy(table, braid3, table_length = sizeof braid3);
    memcpy(program, one, program_length = sizeof one);
    answers("clear", clear);
    answers("reverse", reverse);
    memcpy(program, signs, program_length = sizeof signs);
    answers("enquire", enquire);
    hold("4, 3 and 5 steps", values[0] == 4 && values[1] == 3 && values[2] == 5);
    memcpy(sizes, values, sizeof sizes);
    answer_length = (size_t)(sizes[0] + sizes[1]);
    answers("commit", commit);
    hold("the enquiry's own numbers", memcmp(sizes, values, sizeof sizes) == 0);
    answer_length--;
    commit();
    hold("an area one byte too short for them", result == BRAID_ANSWER_SHORT);
    sizes[2]++;
    commit();
    hold("other numbers", result == BRAID_OTHER_NUMBERS && values[0] == BRAID_NO_PLACE);
    program_length = sizeof one;
    answers("mirror_clear", mirror_clear);
    memcpy(program, turned, sizeof turned);
    answers("left_reverse", left_reverse);
    hold("1 -2 from the end after 1 step", values[0] == 2 && values[1] == 2 && values[2] == 1);
    memcpy(program, back_last, sizeof back_last);
    memcpy(answer, back_first, sizeof back_first);
    answers("compare_signed", compare_signed);
    hold("1 2 -1 and -2 1 2 are the same after 4 steps and 1", values[0] == BRAID_SAME && values[1] == 4 && values[2] == 1);
    memcpy(program, one, sizeof one);
    memcpy(answer, two, sizeof two);
    answers("compare", compare);
    hold("same after 5 steps", values[0] == BRAID_SAME && values[1] == 5);
    answers("remainder", remains);
    hold("nothing is left after 5 steps", values[0] == BRAID_MOVES && values[1] == 0 && values[2] == 5);
    chain_length = needed;
    answers("chain", list);
    hold("an entry for the one step on two different moves", values[1] == 5 && values[2] == 1 && values[3] == needed);
    chain_length = needed - 1;
    list();
    hold("an area one byte too short for the chain", result == BRAID_ANSWER_SHORT && values[0] == BRAID_NO_PLACE);
    chain_length = needed;
    answers("check", check);
    hold("joins", values[0] == BRAID_JOINS);
    hold("bytes of the longest chain", braid_chain_bytes(BRAID_MOST_TABLE_MOVES, BRAID_MOST_ENTRIES) == BRAID_MOST_CHAIN_BYTES);
    hold("the moves of a table", braid_table_moves(table) == 3);
    hold("a move field's bits", braid_move_bits(1) == 0 && braid_move_bits(2) == 1 && braid_move_bits(9) == 4 && braid_move_bits(16) == 4);
    hold("the largest allowance", (uint16_t)BRAID_MOST_ALLOWANCE == BRAID_MOST_ALLOWANCE && (uint16_t)(BRAID_MOST_ALLOWANCE + 1) == 0);
    hold("the last text", strcmp(braid_text(BRAID_NOT_TRAY), "the tray ends too early, or bytes follow it") == 0 &&
                              strcmp(braid_text(BRAID_NOT_TRAY + 1), braid_text(200)) == 0);
    hold("texts", strcmp(braid_text(BRAID_OPEN_PAIR), "the reversing met an open pair") == 0 && strcmp(braid_text(14), braid_text(200)) == 0);
}

/* A plain braid table of n moves, the heaviest ones: weights play no part. */
static void fill_braid_table(uint8_t n)
{
    uint8_t a, b;
    plain[0] = n;
    memset(plain + 1, BRAID_MOST_WEIGHT, n);
    plain_length = 1 + (size_t)n;
    for (a = 1; a <= n; a++) {
        for (b = a + 1; b <= n; b++) {
            uint8_t pair[] = {2, b, a, 2, a, b}, apart[] = {1, b, 1, a};
            if (b == a + 1) {
                memcpy(plain + plain_length, pair, sizeof pair);
                plain_length += sizeof pair;
            } else {
                memcpy(plain + plain_length, apart, sizeof apart);
                plain_length += sizeof apart;
            }
        }
    }
}

static void longest_bed(void)
{
    fill_braid_table(BRAID_MOST_TABLE_MOVES);
    pack_table();
    table_length = (size_t)values[0];
    memset(plain, BRAID_MOST_TABLE_MOVES, BRAID_MOST_MOVES);
    plain_length = BRAID_MOST_MOVES;
    pack_program();
    program_length = (size_t)values[0];
    answer_length = BRAID_MOST_BED_BYTES;
    answers("bed", show);
    hold("the longest bed", values[0] == BRAID_MOST_BED_BYTES && braid_bed_bytes(BRAID_MOST_TABLE_MOVES) == BRAID_MOST_BED_BYTES);
    hold("the largest total", answer[BRAID_MOST_BED_BYTES - 2] == 0x0F && answer[BRAID_MOST_BED_BYTES - 1] == 0xFF);
    memset(plain, BRAID_MOST_TABLE_MOVES + BRAID_BACK, BRAID_MOST_MOVES);
    pack_program();
    show();
    hold("the smallest total", answer[BRAID_MOST_BED_BYTES - 2] == 0xF0 && answer[BRAID_MOST_BED_BYTES - 1] == 0x01);
    answer_length = BRAID_MOST_BED_BYTES - 1;
    show();
    hold("an area one byte too short for a bed", result == BRAID_ANSWER_SHORT);
    hold("its text", strcmp(braid_text(BRAID_NOT_BRAID_TABLE), "the table isn't the braid table of its number of moves") == 0);
}

/* The listing of 99 times the last move and once the first, which commutes with it, under the braid table of 16 moves: 100 words. */
static void long_listing(void)
{
    fill_braid_table(BRAID_MOST_TABLE_MOVES);
    pack_table();
    table_length = (size_t)values[0];
    memset(plain, BRAID_MOST_TABLE_MOVES, 100);
    plain[0] = 1;
    plain_length = 100;
    pack_program();
    program_length = (size_t)values[0];
    answer_length = 100 * 101;
    answers("ways", ways);
    hold("a word for each place of the first move", values[0] == 100 && values[1] == 100 * 101);
    answer_length--;
    ways();
    hold("an area one byte too short for a listing", result == BRAID_ANSWER_SHORT && answer[0] == 0);
}

/* As many logs as a tray holds, each of the longest image, against the same program, under the heaviest braid table of 16 moves. */
static void largest_tray(void)
{
    int i, same = 0;
    fill_braid_table(BRAID_MOST_TABLE_MOVES);
    pack_table();
    table_length = (size_t)values[0];
    memset(plain, BRAID_MOST_TABLE_MOVES, BRAID_MOST_MOVES);
    plain_length = BRAID_MOST_MOVES;
    pack_program();
    program_length = (size_t)values[0];
    text[0] = BRAID_MOST_LOGS;
    for (text_length = 1, i = 0; i < BRAID_MOST_LOGS; i++) {
        text[text_length] = (uint8_t)(program_length / 256);
        text[text_length + 1] = (uint8_t)(program_length % 256);
        memcpy(text + text_length + 2, program, program_length);
        text_length += 2 + program_length;
    }
    memset(answer, PAINT, AREA);
    answer_length = BRAID_MOST_LOGS * BRAID_LOG_BYTES;
    answers("tray", tray);
    for (i = 0; i < BRAID_MOST_LOGS; i++) {
        const uint8_t *log = answer + i * BRAID_LOG_BYTES;
        same += log[0] == BRAID_SAME && log[1] * 256 + log[2] == BRAID_MOST_MOVES;
    }
    hold("64 logs are the same after a step for each move", values[0] == BRAID_MOST_LOGS && same == BRAID_MOST_LOGS && answer[answer_length] == PAINT);
    answer_length--;
    tray();
    hold("an area one byte too short for the answers", result == BRAID_ANSWER_SHORT);
    text_length--;
    tray();
    hold("a tray one byte too short", result == BRAID_NOT_TRAY);
    text[0]++;
    tray();
    hold("a log too many", result == BRAID_TOO_MANY_LOGS && values[0] == BRAID_NO_PLACE);
}

/* A text of one item again and again, with a space between, as often as it fits between a beginning and an end. */
static void fill_text(const char *beginning, const char *item, const char *end)
{
    size_t first = strlen(beginning), length = strlen(item), last = strlen(end);
    memcpy(text, beginning, first);
    for (text_length = first; text_length + length + 1 + last <= TEXT; text_length += length + 1) {
        memcpy(text + text_length, item, length);
        text[text_length + length] = ' ';
    }
    memcpy(text + text_length, end, last);
    text_length += last;
}

/* A text is answered with so many moves, each this byte, and its stack suffices. */
static void means(const char *name, size_t moves, uint8_t byte)
{
    size_t i = 0;
    memset(answer, PAINT, BRAID_MOST_MOVES + 1);
    answer_length = BRAID_MOST_MOVES;
    answers(name, import);
    while (i < moves && answer[i] == byte) {
        i++;
    }
    hold(name, values[0] == moves && i == moves && answer[moves] == PAINT);
}

static void refused(const char *name, enum braid_result expected)
{
    size_t used = depth(import);
    hold(name, result == expected && values[0] == BRAID_NO_PLACE && used <= BRAID_STACK);
}

/* The least of three times of importing the text, in nanoseconds a byte. */
static double time_a_byte(void)
{
    double least = 0;
    int i;
    for (i = 0; i < 3; i++) {
        clock_t began = clock();
        double taken;
        import();
        taken = (double)(clock() - began) / CLOCKS_PER_SEC * 1e9 / (double)text_length;
        least = i == 0 || taken < least ? taken : least;
    }
    return least;
}

/* No text takes much longer a byte than a flat one does. */
static void in_proportion(const char *name, double flat, const char *beginning, const char *item, const char *end, size_t moves, uint8_t byte)
{
    double taken;
    fill_text(beginning, item, end);
    means(name, moves, byte);
    taken = time_a_byte();
    printf("%s: %.2f times as long a byte as a flat text\n", name, taken / flat);
    hold(name, taken <= SLOWER * flat);
}

static void long_texts(void)
{
    static const char deepest[] = "-(-(-(-(-(-(-(-(1^2)^2)^2)^2)^2)^2)^2)^2)^2";
    static const char zero_tower[] = "((((((((1^99)^99)^99)^99)^99)^99)^99)^99)^0", empty_tower[] = "(((((((()^9)^9)^9)^9)^9)^9)^9)^9";
    static const char once_tower[] = "-(-(-(-(-(-(-(-(1^0)^1)^1)^1)^1)^1)^1)^1)^1";
    double flat;
    fill_braid_table(3);
    pack_table();
    table_length = (size_t)values[0];
    memcpy(text, deepest, text_length = sizeof deepest - 1);
    means("import the deepest text", 512, 1);
    fill_text("(((((((((", "1^0", "1)))))))))");
    refused("a long text inside nine brackets", BRAID_NOT_PATTERN);
    fill_text("", "1^0", "1^0");
    means("import a long text", 0, 0);
    flat = time_a_byte();
    printf("a flat text: %.2f nanoseconds a byte\n", flat);
    fill_text("", "1^0", "(1^99)^41 -1^0 1^36");
    means("a long text with its moves at the end", BRAID_MOST_MOVES, 1);
    fill_text("", "1^0", "4^0");
    refused("a long text with a number too high at the end", BRAID_IMAGE_FIELD);
    fill_text("", "1^0", "1^0 ");
    refused("a long text with a space at the end", BRAID_NOT_PATTERN);
    fill_text("", "1^99", "1");
    refused("a long text of too many moves", BRAID_TOO_MANY_MOVES);
    in_proportion("brackets and minuses", flat, "", "(1)^0 -2^0", "(1)^0", 0, 0);
    in_proportion("brackets that a 0 empties", flat, "", "((1^99)^41)^0", "()", 0, 0);
    in_proportion("towers that a 0 empties", flat, "", zero_tower, "()", 0, 0);
    in_proportion("towers of empty brackets", flat, "", empty_tower, "()", 0, 0);
    in_proportion("brackets eight deep, each once", flat, "", once_tower, "()", 0, 0);
    in_proportion("a long text inside eight brackets", flat, "-(-(-(-(-(-(-(-(", "1^0", "1)^2)^2)^2)^2)^2)^2)^2)^2", 256, 1);
    in_proportion("a long text many times", flat, "(-(", "1^0", "1)^63)^65", BRAID_MOST_MOVES, 1 + BRAID_BACK);
    in_proportion("a long text that means nothing, many times", flat, "((((((((", "1^0", "1^0)^99)^99)^99)^99)^99)^99)^99)^99", 0, 0);
}

int main(void)
{
    /* A call that goes on for ever is ended, and what was found before is told. */
    alarm(MOST_SECONDS);
    setvbuf(stdout, NULL, _IOLBF, 0);
    longest_forms();
    engine();
    longest_bed();
    long_listing();
    largest_tray();
    long_texts();
    printf("%d passed, %d failed\n", passed, failed);
    return failed != 0;
}
