/*
 * Notes which edges of a library were reached. Code that clang compiles with -fsanitize-coverage=trace-pc-guard calls a function on each edge, and hands it a
 * number of its own, the guard; before main it hands over the range of all guards. The functions are these, in the place of clang's own library for it.
 * At its end the program writes to the file that COVERAGE names: the number of guards, then the place of each that was reached, counted from 0, a line each.
 */
#include <stdint.h>
#include <stdio.h>
#include <stdlib.h>

/* The names are clang's; C keeps names that begin so for compilers. */
void __sanitizer_cov_trace_pc_guard_init(uint32_t *start, uint32_t *stop);
void __sanitizer_cov_trace_pc_guard(uint32_t *guard);

static const uint32_t *guards, *guards_end;

static void write_reached(void)
{
    const char *name = getenv("COVERAGE");
    FILE *file = name == NULL ? NULL : fopen(name, "w");
    const uint32_t *guard;
    int written;
    if (file == NULL) {
        fprintf(stderr, "the edges that were reached are not written: let COVERAGE name a file that can be written\n");
        return;
    }
    written = fprintf(file, "%lu\n", (unsigned long)(guards_end - guards)) > 0;
    for (guard = guards; guard < guards_end; guard++) {
        if (*guard != 0) {
            written = fprintf(file, "%lu\n", (unsigned long)(guard - guards)) > 0 && written;
        }
    }
    if (fclose(file) != 0 || !written) {
        fprintf(stderr, "%s was not written whole: make room for it\n", name);
        remove(name);
    }
}

/* Every object file that has guards calls it, with the range of them all: the first call is enough. */
void __sanitizer_cov_trace_pc_guard_init(uint32_t *start, uint32_t *stop)
{
    if (guards == NULL) {
        guards = start;
        guards_end = stop;
        atexit(write_reached);
    }
}

void __sanitizer_cov_trace_pc_guard(uint32_t *guard)
{
    *guard = 1;
}
