/* The host program of the conformity kit: runs the vectors of a file, or of standard input, on the library that it is linked with, and writes the report. */
#include "runner.h"
#include <stdio.h>

#ifndef RUNNER_CAPACITY
#define RUNNER_CAPACITY (1u << 20)
#endif

static uint8_t memory[RUNNER_CAPACITY];
static FILE *vectors;

int next_byte(void)
{
    return getc(vectors);
}

void put_byte(int byte)
{
    putchar(byte);
}

int main(int count, char **arguments)
{
    int status;
    if (count > 2) {
        fprintf(stderr, "usage: %s [VECTORS], standard input where no file is named\n", arguments[0]);
        return 2;
    }
    vectors = count == 2 ? fopen(arguments[1], "rb") : stdin;
    if (vectors == NULL) {
        fprintf(stderr, "%s cannot be read: name a file of vectors\n", arguments[1]);
        return 2;
    }
    status = run_vectors(memory, sizeof memory);
    if (ferror(vectors)) {
        fprintf(stderr, "the vectors were not read to their end\n");
        status = 1;
    }
    if (fflush(stdout) != 0) {
        fprintf(stderr, "the report was not written whole\n");
        status = 1;
    }
    return status;
}
