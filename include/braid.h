/*
 * Reversing, comparing, showing and packing of braiding programs: the interface of libbraid.a. docs/SPECIFICATION.md says what each call does, bit for
 * bit; section numbers below are its.
 *
 * What a caller must keep (8.2). Each pointer is not null, also where its length is 0 (as an empty vector's may be), and points to memory of that
 * length which may be read, that of areas and values also written; values points to four aligned numbers. No two images, texts, trays, areas or values of one
 * call overlap: first and second are two places, also for equal programs. During the call no other thread writes to images, texts or trays, or touches areas
 * and values. Nothing is promised where this is broken, and no call checks it. A call writes the workspace, the answer area and the four values, each only as
 * said below, and no other memory; it keeps nothing, so calls with different areas and values may run at the same time, also on the same images.
 *
 * The language is C99 or later, or C++. An allowance is 16 bits: a larger number is cut by the compiler before the call sees it.
 *
 * What linking needs. This, BRAID_STACK and BRAID_CALL are of this archive; all else in this file binds every maker of such a library (1.6).
 * The archive is for 64-bit x86 (System V calling convention); archives for other processors, and what each wants, are in boards/README.md. It wants memcpy
 * and memset and no other symbol, and has no writable data. Its code uses SSE2 and the red zone below the stack pointer: do not call it where either is
 * forbidden, as in an interrupt handler without a stack of its own. A call takes at most BRAID_STACK bytes of stack.
 */
#ifndef BRAID_H
#define BRAID_H

#include <stdint.h>

#ifdef __cplusplus
extern "C" {
#endif

/* The minor number rises where calls, values or refusals are added, the major one where an image, a call or a value that was there has changed: since 1.0
 * tables have weights, and with them the images of tables and chains and their plain forms are others; since 2.0 lengths have 64 bits on every processor, as
 * they had on 64-bit x86. */
#define BRAID_VERSION_MAJOR 3
#define BRAID_VERSION_MINOR 0

/* A result must be looked at, and no pointer may be null; told to the compiler where it can be. */
#if defined(__GNUC__) || defined(__clang__)
#define BRAID_CALL __attribute__((warn_unused_result, nonnull))
#else
#define BRAID_CALL
#endif

/* LIMITS AND SIZES (1.3, 5.10) */

enum {
    BRAID_MOST_TABLE_MOVES = 16,    /* n, the moves of a table */
    BRAID_MOST_WEIGHT = 8,          /* the weight of a move; the least is 1 */
    BRAID_MOST_COMPLETION = 15,     /* moves of a completion */
    BRAID_MOST_MOVES = 4095,        /* moves of a program in an image or in plain form */
    BRAID_MOST_ENTRIES = 65535,     /* entries of a chain */
    BRAID_MOST_SET = 256,           /* words of the set that braid_compare_signed grows */
    BRAID_MOST_LOGS = 64,           /* logs of a tray */
    BRAID_LOG_BYTES = 3,            /* bytes of the answer for a log */
    BRAID_MOST_ALLOWANCE = 65535,   /* the largest allowance */
    BRAID_MOST_TABLE_BYTES = 1942,  /* the longest table image */
    BRAID_MOST_PLAIN_BYTES = 3857,  /* the longest plain table */
    BRAID_MOST_PROGRAM_BYTES = 2561, /* the longest program image; a plain program has a byte a move */
    BRAID_MOST_CHAIN_BYTES = 188416, /* the longest chain image */
    BRAID_MOST_BED_BYTES = 289,     /* the longest bed, of 17 bobbins */
    BRAID_BACK = 128,               /* a back move's byte is its number and this */
    BRAID_OPEN = 255,               /* stands for an open pair in a plain table */
    BRAID_VALUES = 4,               /* values that every call sets */
    BRAID_STACK = 10240             /* bytes of stack that suffice for any call */
};

/* Bits of a move field under a table of n moves (5.2). */
static inline unsigned braid_move_bits(unsigned n)
{
    unsigned bits = 0;
    for (n = n - 1; n > 0; n = n / 2) {
        bits++;
    }
    return bits;
}

/* n, the number of moves of a table, from its image, which has at least one byte (5.4); the weights follow it. */
static inline unsigned braid_table_moves(const uint8_t *table)
{
    return (table[0] >> 4) + 1u;
}

/* Bytes of a chain image of so many entries under a table of n moves (5.6). */
static inline uint64_t braid_chain_bytes(unsigned n, uint64_t entries)
{
    return (16 + entries * (15 + 2 * (uint64_t)braid_move_bits(n)) + 7) / 8;
}

/* Bytes of a bed under a table of n moves (6.11). */
static inline uint64_t braid_bed_bytes(unsigned n)
{
    return (n + (uint64_t)1) * (n + (uint64_t)1);
}

/* RESULTS (section 7) */

enum braid_result {
    BRAID_ANSWER = 0,
    BRAID_TABLE_ENDS = 1,
    BRAID_TABLE_FIELD = 2,
    BRAID_TABLE_TAIL = 3,
    BRAID_IMAGE_ENDS = 4,
    BRAID_IMAGE_FIELD = 5,
    BRAID_IMAGE_TAIL = 6,
    BRAID_BACK_MOVE = 7,
    BRAID_UNEQUAL_WEIGHTS = 8,
    BRAID_CUBE_FAILS = 9,
    BRAID_OPEN_PAIR = 10,
    BRAID_ALLOWANCE_USED = 11,
    BRAID_WORKSPACE_SHORT = 12,
    BRAID_ANSWER_SHORT = 13,
    /* 14 is unused */
    BRAID_NOT_BRAID_TABLE = 15,
    BRAID_NO_MIRROR = 16,
    BRAID_MIRROR_FAILS = 17,
    BRAID_OTHER_NUMBERS = 18,
    BRAID_NOT_PATTERN = 19,
    BRAID_TOO_MANY_MOVES = 20,
    BRAID_SET_OPEN_PAIR = 21,
    BRAID_SET_TOO_LARGE = 22,
    BRAID_TOO_MANY_LOGS = 23,
    BRAID_NOT_TRAY = 24
};

/* What values[0] means follows from call and result. An answer of compare, compare_signed or chain, and the first byte of the answer for a log of a tray that
 * isn't refused: */
enum braid_verdict { BRAID_SAME = 0, BRAID_DIFFERENT = 1 };

/* An answer of remainder: */
enum braid_remaining { BRAID_MOVES = 0, BRAID_NONE = 1 };

/* An answer of check: */
enum braid_passage { BRAID_JOINS = 0, BRAID_BREAKS = 1, BRAID_ENDS_ELSEWHERE = 2 };

/* A refusal: whether it names no place, a pair (its numbers in values[1] and values[2]), a triple of the table or one of its mirror (in values[1] to
 * values[3]), or the set of braid_compare_signed; the others are 0 */
enum braid_place { BRAID_NO_PLACE = 0, BRAID_PAIR = 1, BRAID_TRIPLE = 2, BRAID_MIRROR_TRIPLE = 3, BRAID_SET = 4 };

/* A result for people. */
static inline const char *braid_text(uint8_t result)
{
    static const char *const texts[] = {
        "answered",
        "the table's bytes end too early",
        "a field of the table stands for no move, or a number of its plain form is out of range",
        "after the last field of the table comes a bit that is set, or a byte",
        "the bytes of a program or chain end too early, or a plain program has too many moves",
        "a field of a program or chain, a byte of a plain program, or a number in a text, stands for no move",
        "after the last field of a program or chain comes a bit that is set, or a byte",
        "there is a back move in a program where none may be",
        "the two sides of a relation have different weights",
        "a triple of the table breaks the cube rule",
        "the reversing met an open pair",
        "the allowance is used",
        "the workspace is too short",
        "the answer area is too short",
        (const char *)0, /* 14 is unused */
        "the table isn't the braid table of its number of moves",
        "the table has no mirror",
        "a triple of the mirror breaks the cube rule",
        "the numbers handed in aren't those of this reversing",
        "the text is no pattern",
        "the pattern means more than 4,095 moves",
        "growing the set met an open pair",
        "the set would have more than 256 words",
        "the tray has more than 64 logs",
        "the tray ends too early, or bytes follow it"
    };
    return result < sizeof texts / sizeof *texts && texts[result] ? texts[result] : "no result of this library";
}

/*
 * THE CALLS (sections 6 and 8)
 *
 *   table, program, first, second, done,   images (5.4 to 5.6); only read
 *   pattern, chain
 *   plain                                  a plain table or program (5.7, 5.8); only read
 *   text                                   a pattern as it is written (6.17); only read
 *   tray                                   logs, each with its length before it (5.11); only read
 *   allowance                              the most steps of one reversing
 *   workspace                              a byte holds a move; what it holds on entry plays no part. After refusals 1 to 8, 16, 23 and 24 it is as
 *                                          found, after every other outcome all its bytes are zero
 *   answer                                 begins with the answer's bytes after an answer; every other byte is as found, and so are all after a
 *                                          refusal, but for 13 of braid_ways
 *   values                                 all four are set by every call
 *
 * A larger allowance, workspace or answer area changes no outcome but 11, 12 and 13, and of the answer for a log no other than 11 and 12. A workspace of 32,768
 * bytes is usual.
 */

/*
 * Reverses a program. Answer area: the numerator, then the denominator, a byte a move, both forward; one as long as the workspace always suffices.
 * Values: length of the numerator, length of the denominator, steps, 0. Refusals: 1 to 6, 10 (back move's number first), 11, 12, 13.
 * Steps in another order (3.7) would come to the same two words in as many steps, and after 10 to no end.
 */
BRAID_CALL uint8_t braid_reverse(const uint8_t *table, uint64_t table_length, const uint8_t *program, uint64_t program_length, uint16_t allowance,
                                 uint8_t *workspace, uint64_t workspace_length, uint8_t *answer, uint64_t answer_length, uint64_t *values);

/*
 * The sizes of what braid_reverse would answer, with no answer area (6.15): a caller can reserve memory, then call braid_commit.
 * Values: as reverse. Refusals: 1 to 6, 10, 11, 12.
 */
BRAID_CALL uint8_t braid_enquire(const uint8_t *table, uint64_t table_length, const uint8_t *program, uint64_t program_length, uint16_t allowance,
                                 uint8_t *workspace, uint64_t workspace_length, uint64_t *values);

/*
 * As braid_reverse, for a caller who has the three numbers (6.16); any may be handed in. 18 where one of them is not that of this reversing, also where the
 * answer area is too short. With those of an answered braid_enquire on the same images, allowance and workspace length, and an area of at least numerator +
 * denominator bytes, it answers, and leaves in the area what braid_reverse would.
 * Answer area and values: as reverse. Refusals: 1 to 6, then 10, 11 or 12, then 18, then 13.
 */
BRAID_CALL uint8_t braid_commit(const uint8_t *table, uint64_t table_length, const uint8_t *program, uint64_t program_length, uint16_t allowance,
                                uint64_t numerator, uint64_t denominator, uint64_t steps, uint8_t *workspace, uint64_t workspace_length,
                                uint8_t *answer, uint64_t answer_length, uint64_t *values);

/*
 * Reverses a program from its finished end (3.8). A step takes the rightmost forward move that stands directly before a back one; with the relation whose sides
 * end in these two moves, U a and V b, it puts U's undoing, then V, in their place. 16 names the relation for which the table has no mirror, by its own
 * pair: its sides end in the same move, or in the last moves of a relation before it. The table need not clear.
 * Answer area and values: as reverse. Refusals: 1 to 6, then 16, then 10 (back move's number first), 11 or 12, then 13.
 */
BRAID_CALL uint8_t braid_left_reverse(const uint8_t *table, uint64_t table_length, const uint8_t *program, uint64_t program_length, uint16_t allowance,
                                      uint8_t *workspace, uint64_t workspace_length, uint8_t *answer, uint64_t answer_length, uint64_t *values);

/*
 * The weight check of a table, that both sides of each relation weigh the same (4.2), then its cube check.
 * Values: 0, 0, 0, 0. Refusals: 1 to 3, 8, 9, 11, 12.
 */
BRAID_CALL uint8_t braid_clear(const uint8_t *table, uint64_t table_length, uint16_t allowance, uint8_t *workspace, uint64_t workspace_length,
                               uint64_t *values);

/*
 * Clears the mirror of a table, which has each relation with both sides read backward (3.8, 6.13): 16 if there is none; the table's weight check, with the
 * table's own pair; then the cube check of the mirror. 17, and 11 and 12 here, name a triple of the mirror, with BRAID_MIRROR_TRIPLE as its place. Whether the
 * table itself obeys the cube rule plays no part.
 * Values: 0, 0, 0, 0. Refusals: 1 to 3, 16, 8, 17, 11, 12.
 */
BRAID_CALL uint8_t braid_mirror_clear(const uint8_t *table, uint64_t table_length, uint16_t allowance, uint8_t *workspace, uint64_t workspace_length,
                                      uint64_t *values);

/*
 * Clears the table and compares two programs of forward moves under it. A verdict is right (6.5): same if a chain joins them, else different. Programs of
 * different weights are different without a step; those of equal weight may be the same though they are not equally long.
 * Values: BRAID_SAME or BRAID_DIFFERENT, steps, 0, 0. Refusals: 1 to 9, 11, 12.
 */
BRAID_CALL uint8_t braid_compare(const uint8_t *table, uint64_t table_length, const uint8_t *first, uint64_t first_length, const uint8_t *second,
                                 uint64_t second_length, uint16_t allowance, uint8_t *workspace, uint64_t workspace_length, uint64_t *values);

/*
 * Compares two programs of any signs (6.18). They are the same exactly if a chain of swaps on forward moves that stand together, and of a move beside its
 * undoing put in or taken out, leads from one to the other; a verdict is right. The table must have a mirror (16), and it and its mirror must clear (8, 9, 17).
 * Then a set of words is grown in the workspace, from the empty word and the single moves, by adding each u\v of two of its words: 21 where an open pair is
 * met, 22 where it passes BRAID_MOST_SET words; 11 and 12 meanwhile name the set, with BRAID_SET as their place. Once it is closed, two reversings decide, and
 * meet no open pair.
 * Values: BRAID_SAME or BRAID_DIFFERENT, steps of the first reversing, steps of the second, 0. Refusals: 1 to 6, 16, 8, 9, 17, 21, 22, 11, 12.
 */
BRAID_CALL uint8_t braid_compare_signed(const uint8_t *table, uint64_t table_length, const uint8_t *first, uint64_t first_length, const uint8_t *second,
                                        uint64_t second_length, uint16_t allowance, uint8_t *workspace, uint64_t workspace_length, uint64_t *values);

/*
 * As compare. After 'same' the answer area begins with the image of a chain that turns the first program into the second. It has an entry for each step of
 * the reversing on two different moves, and none for a step on two equal ones; the first values[3] bytes of the area, handed to braid_check with the
 * same table and programs, are answered with BRAID_JOINS. Words on its way may be longer than both programs. After 'different' the area is as found.
 * Values: BRAID_SAME, steps, entries, bytes of the image; or BRAID_DIFFERENT, steps, 0, 0. Refusals: as compare, and 13 after 'same' if the area is shorter
 * than the image. braid_chain_bytes(n, allowance) always suffices, and so do as many entries as braid_compare's steps; n is braid_table_moves(table).
 */
BRAID_CALL uint8_t braid_chain(const uint8_t *table, uint64_t table_length, const uint8_t *first, uint64_t first_length, const uint8_t *second,
                               uint64_t second_length, uint16_t allowance, uint8_t *workspace, uint64_t workspace_length, uint8_t *answer,
                               uint64_t answer_length, uint64_t *values);

/*
 * Clears the table and says which moves are left to run of a pattern after those done, both programs of forward moves (6.10). After 'moves' the
 * answer area begins with them, a byte a move: put after those done they make a word that a chain joins to the pattern, and any other moves that
 * do so are joined to them. 'None' comes only where no moves do so, without a step where the pattern weighs less than the part done, and leaves the
 * area as found. One as long as the workspace always suffices.
 * Values: BRAID_MOVES or BRAID_NONE; how many moves, 0 after 'none'; steps; 0. Refusals: 1 to 9, 11, 12, 13 (never in place of 'none').
 */
BRAID_CALL uint8_t braid_remainder(const uint8_t *table, uint64_t table_length, const uint8_t *done, uint64_t done_length, const uint8_t *pattern,
                                   uint64_t pattern_length, uint16_t allowance, uint8_t *workspace, uint64_t workspace_length, uint8_t *answer,
                                   uint64_t answer_length, uint64_t *values);

/*
 * Compares up to BRAID_MOST_LOGS logs with one pattern, all programs of forward moves, and clears the table once for all of them (6.19). The tray is a byte
 * with the number of logs, then for each log its image's length in two bytes, high byte first, and the image (5.11). Answer area: BRAID_LOG_BYTES bytes for
 * each log, in the order of the tray: BRAID_SAME, BRAID_DIFFERENT or the number of a refusal of this log (4 to 7, 11, 12), then the steps in two bytes, high
 * byte first, 0 after a refusal. They are what braid_compare says of this log as first and the pattern as second, with the same table, allowance and workspace
 * length: a log that is refused changes the answer for no other, and the call is answered. 13 is judged after the clearing, before the first log.
 * Values: logs, 0, 0, 0. Refusals: 23 (by the first byte alone), 24 (the tray ends early, or bytes follow it), 1 to 3, 4 to 7 (of the pattern), 8, then 9, 11
 * or 12 (with a triple), then 13.
 */
BRAID_CALL uint8_t braid_tray(const uint8_t *table, uint64_t table_length, const uint8_t *tray, uint64_t tray_length, const uint8_t *pattern,
                              uint64_t pattern_length, uint16_t allowance, uint8_t *workspace, uint64_t workspace_length, uint8_t *answer,
                              uint64_t answer_length, uint64_t *values);

/*
 * Follows a given chain from the first program of forward moves; the table need not clear. The workspace holds the word on its way; one
 * of as many bytes as the first program weighs, at most 8 a move, suffices for a chain that braid_chain listed.
 * Values: BRAID_JOINS, BRAID_BREAKS or BRAID_ENDS_ELSEWHERE; the entry that breaks, from 0, else 0; 0; 0. Refusals: 1 to 7, 12.
 */
BRAID_CALL uint8_t braid_check(const uint8_t *table, uint64_t table_length, const uint8_t *first, uint64_t first_length, const uint8_t *second,
                               uint64_t second_length, const uint8_t *chain, uint64_t chain_length, uint8_t *workspace, uint64_t workspace_length,
                               uint64_t *values);

/*
 * The image of a plain table, or the plain form of a table image, with the weights of its moves (5.4, 5.7). Values: bytes written, 0, 0, 0. Refusals: 1, 2, 3,
 * 13.
 */
BRAID_CALL uint8_t braid_pack_table(const uint8_t *plain, uint64_t plain_length, uint8_t *answer, uint64_t answer_length, uint64_t *values);
BRAID_CALL uint8_t braid_unpack_table(const uint8_t *table, uint64_t table_length, uint8_t *answer, uint64_t answer_length, uint64_t *values);

/*
 * The image of a plain program under its table. Values: bytes written, 0, 0, 0. Refusals: 1 to 5, 13.
 */
BRAID_CALL uint8_t braid_pack_program(const uint8_t *table, uint64_t table_length, const uint8_t *plain, uint64_t plain_length, uint8_t *answer,
                                      uint64_t answer_length, uint64_t *values);

/*
 * The plain form of a program image under its table. Values: bytes written, 0, 0, 0. Refusals: 1 to 6, 13.
 */
BRAID_CALL uint8_t braid_unpack_program(const uint8_t *table, uint64_t table_length, const uint8_t *program, uint64_t program_length,
                                        uint8_t *answer, uint64_t answer_length, uint64_t *values);

/*
 * The bed after the first `moves` moves of a program, or after all of them where it has no more, under the braid table of n moves (2.4). The n + 1
 * bobbins first stand in order. Move i, forward or back, exchanges those at places i and i + 1; forward adds 1 to the total of these two bobbins, back takes 1
 * away. Answer area: the bobbin at each place, a byte each, then the total of each pair of bobbins 1 2, 1 3, .., in two bytes, high byte first, in two's
 * complement: braid_bed_bytes(n) bytes. Joined programs, run to the end, leave equal beds (6.11).
 * Values: bytes written, 0, 0, 0. Refusals: 1 to 3, 15, 4 to 6, 13, in this order.
 */
BRAID_CALL uint8_t braid_bed(const uint8_t *table, uint64_t table_length, const uint8_t *program, uint64_t program_length, uint64_t moves,
                             uint8_t *answer, uint64_t answer_length, uint64_t *values);

/*
 * All words of forward moves that chains join to a program of forward moves, each once, in order of the first move that differs, lower number first
 * (6.14). The table must pass the weight check and need not clear. Answer area: each word's moves, a byte each, then a zero byte. Where the listing is
 * longer than the area, the area holds zeros in every byte, the one refusal that changes it. There is neither allowance nor workspace.
 * Values: words, bytes written, 0, 0. Refusals: 1 to 8, 13, in this order.
 */
BRAID_CALL uint8_t braid_ways(const uint8_t *table, uint64_t table_length, const uint8_t *program, uint64_t program_length, uint8_t *answer,
                              uint64_t answer_length, uint64_t *values);

/*
 * The moves that a pattern means, from its text (6.17): items with one space between; an item is a move number of 1 to 99 or a bracket that holds a pattern,
 * with at most one minus before it and at most one ^ and a count of 0 to 99 after it; the count acts first, then the minus undoes the whole. Brackets nest at
 * most 8 deep. Exactly these texts are read, each in one way; the empty text is one. Answer area: the moves as a plain program, a byte each, 128 more for a
 * back move; BRAID_MOST_MOVES bytes always suffice. 5 is a move number above n, also under a count of 0. There is neither allowance nor workspace.
 * Values: moves written, 0, 0, 0. Refusals: 1 to 3, 19, 5, 20, 13, in this order.
 */
BRAID_CALL uint8_t braid_import(const uint8_t *table, uint64_t table_length, const uint8_t *text, uint64_t text_length, uint8_t *answer,
                                uint64_t answer_length, uint64_t *values);

#ifdef __cplusplus
}
#endif

#endif
