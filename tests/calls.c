/*
 * Each call of the header, in code that is both C and C++, with results, places and sizes by their names. What calls answer at every turn is the subject of the
 * conformity kit's vectors; this shows that the header serves both languages. The last line is 'N passed, M failed'.
 */
#include "braid.h"

#include <stdio.h>
#include <string.h>

/* An array as a call takes it: where it is, and its number of bytes. */
#define ALL_OF(array) (array), sizeof(array)

static const uint8_t table[] = {0x20, 0x04, 0x90, 0x86, 0x30, 0x92, 0x92, 0x60};
static const uint8_t plain_table[] = {3, 1, 1, 1, 2, 2, 1, 2, 1, 2, 1, 3, 1, 1, 2, 3, 2, 2, 2, 3};
static const uint8_t open_table[] = {0x10, 0x00}, unequal[] = {0x10, 0x25, 0x0C}, mirrorless[] = {0x10, 0x23, 0x18};
static const uint8_t program[] = {0x00, 0x5C, 0x28, 0x20}, plain_program[] = {BRAID_BACK + 3, 1, BRAID_BACK + 2, 1, 2};
static const uint8_t image_121[] = {0x00, 0x30, 0x40}, image_212[] = {0x00, 0x32, 0x08}, one[] = {0x00, 0x10}, two[] = {0x00, 0x12};
static const uint8_t tray[] = {0x02, 0x00, 0x03, 0x00, 0x30, 0x40, 0x00, 0x02, 0x00, 0x10};
static const uint8_t text[] = {'-', '(', '1', ' ', '2', ')', '^', '2'};
static const uint8_t entry[] = {0x00, 0x01, 0x00, 0x00, 0x20};

static uint8_t workspace[200], answer[200];
static uint64_t values[BRAID_VALUES];
static int passed, failed;

/* A call by its result and values. The areas are filled before the next one. */
static void hold(const char *name, uint8_t result, enum braid_result expected, uint64_t v0, uint64_t v1, uint64_t v2, uint64_t v3)
{
    if (result == expected && values[0] == v0 && values[1] == v1 && values[2] == v2 && values[3] == v3) {
        passed++;
    } else {
        failed++;
        printf("failed: %s: result %d (%s), values %llu %llu %llu %llu\n", name, result, braid_text(result), (unsigned long long)values[0],
               (unsigned long long)values[1], (unsigned long long)values[2], (unsigned long long)values[3]);
    }
    memset(workspace, 77, sizeof workspace);
    memset(answer, 77, sizeof answer);
    memset(values, 77, sizeof values);
}

static void reversing(void)
{
    hold("reverse", braid_reverse(ALL_OF(table), ALL_OF(program), 5, ALL_OF(workspace), ALL_OF(answer), values), BRAID_ANSWER, 4, 3, 5, 0);
    hold("left_reverse", braid_left_reverse(ALL_OF(mirrorless), ALL_OF(one), 5, ALL_OF(workspace), ALL_OF(answer), values), BRAID_NO_MIRROR,
         BRAID_PAIR, 1, 2, 0);
    hold("enquire", braid_enquire(ALL_OF(table), ALL_OF(program), 5, ALL_OF(workspace), values), BRAID_ANSWER, 4, 3, 5, 0);
    hold("commit", braid_commit(ALL_OF(table), ALL_OF(program), 5, 4, 3, 6, ALL_OF(workspace), ALL_OF(answer), values), BRAID_OTHER_NUMBERS,
         BRAID_NO_PLACE, 0, 0, 0);
    hold("clear", braid_clear(ALL_OF(table), 4, ALL_OF(workspace), values), BRAID_ALLOWANCE_USED, BRAID_TRIPLE, 1, 2, 3);
    hold("mirror_clear", braid_mirror_clear(ALL_OF(table), 5, workspace, 10, values), BRAID_WORKSPACE_SHORT, BRAID_MIRROR_TRIPLE, 1, 2, 3);
}

static void comparing(void)
{
    hold("compare", braid_compare(ALL_OF(table), ALL_OF(image_121), ALL_OF(image_212), 5, ALL_OF(workspace), values), BRAID_ANSWER, BRAID_SAME, 5,
         0, 0);
    hold("compare_signed", braid_compare_signed(ALL_OF(table), ALL_OF(one), ALL_OF(two), 16, workspace, 165, values), BRAID_WORKSPACE_SHORT,
         BRAID_SET, 0, 0, 0);
    hold("chain", braid_chain(ALL_OF(table), ALL_OF(image_121), ALL_OF(image_212), 5, ALL_OF(workspace), answer, braid_chain_bytes(3, 1), values),
         BRAID_ANSWER, BRAID_SAME, 5, 1, braid_chain_bytes(3, 1));
    hold("remainder", braid_remainder(ALL_OF(table), ALL_OF(one), ALL_OF(two), 5, ALL_OF(workspace), ALL_OF(answer), values), BRAID_ANSWER,
         BRAID_NONE, 0, 1, 0);
    hold("check", braid_check(ALL_OF(table), ALL_OF(image_212), ALL_OF(image_121), ALL_OF(entry), ALL_OF(workspace), values), BRAID_ANSWER,
         BRAID_BREAKS, 0, 0, 0);
    hold("tray", braid_tray(ALL_OF(table), ALL_OF(tray), ALL_OF(image_212), 5, ALL_OF(workspace), answer, 2 * BRAID_LOG_BYTES, values), BRAID_ANSWER,
         2, 0, 0, 0);
}

static void packing(void)
{
    hold("pack_table", braid_pack_table(ALL_OF(plain_table), ALL_OF(answer), values), BRAID_ANSWER, sizeof table, 0, 0, 0);
    hold("unpack_table", braid_unpack_table(ALL_OF(table), ALL_OF(answer), values), BRAID_ANSWER, sizeof plain_table, 0, 0, 0);
    hold("pack_program", braid_pack_program(ALL_OF(table), ALL_OF(plain_program), ALL_OF(answer), values), BRAID_ANSWER, sizeof program, 0, 0, 0);
    hold("unpack_program", braid_unpack_program(ALL_OF(table), ALL_OF(program), ALL_OF(answer), values), BRAID_ANSWER, sizeof plain_program, 0, 0, 0);
    hold("bed", braid_bed(ALL_OF(open_table), ALL_OF(one), 1, ALL_OF(answer), values), BRAID_NOT_BRAID_TABLE, BRAID_NO_PLACE, 0, 0, 0);
    hold("ways", braid_ways(ALL_OF(unequal), ALL_OF(one), ALL_OF(answer), values), BRAID_UNEQUAL_WEIGHTS, BRAID_PAIR, 1, 2, 0);
    hold("import", braid_import(ALL_OF(table), ALL_OF(text), ALL_OF(answer), values), BRAID_ANSWER, 4, 0, 0, 0);
}

int main(void)
{
    reversing();
    comparing();
    packing();
    printf("%d passed, %d failed\n", passed, failed);
    return failed > 0;
}
