/* Packs a table and two programs, compares them, lists a chain from one to the other and checks it: written from header and specification. */
#include "braid.h"
#include <stdio.h>

static uint8_t table[BRAID_MOST_TABLE_BYTES], first[16], second[16], chain[64], workspace[4096];
static uint64_t values[BRAID_VALUES];

static void need(uint8_t result, const char *what)
{
    if (result != BRAID_ANSWER) {
        printf("%s: %s\n", what, braid_text(result));
    }
}

int main(void)
{
    static const uint8_t plain[] = {3, 1, 1, 1, 2, 2, 1, 2, 1, 2, 1, 3, 1, 1, 2, 3, 2, 2, 2, 3}, u[] = {1, 2, 1}, v[] = {2, 1, 2};
    size_t t, m, n, c, w = sizeof workspace;
    need(braid_pack_table(plain, sizeof plain, table, sizeof table, values), "the table");
    t = (size_t)values[0];
    need(braid_pack_program(table, t, u, sizeof u, first, sizeof first, values), "the first program");
    m = (size_t)values[0];
    need(braid_pack_program(table, t, v, sizeof v, second, sizeof second, values), "the second program");
    n = (size_t)values[0];
    need(braid_compare(table, t, first, m, second, n, BRAID_MOST_ALLOWANCE, workspace, w, values), "comparing");
    printf("%s after %u steps\n", values[0] == BRAID_SAME ? "same" : "different", (unsigned)values[1]);
    need(braid_chain(table, t, first, m, second, n, BRAID_MOST_ALLOWANCE, workspace, w, chain, sizeof chain, values), "listing");
    c = (size_t)values[3];
    need(braid_check(table, t, first, m, second, n, chain, c, workspace, sizeof u, values), "checking");
    printf("a chain of %u bytes %s\n", (unsigned)c, values[0] == BRAID_JOINS ? "joins them" : "does not join them");
    return 0;
}
