/*
 * How many bytes of stack the calls that the runner makes take at most: memory below the caller's frame is painted before each call and looked at after it. The
 * number is told behind the report. Linked with --wrap=make_call and --wrap=run_vectors, so that the runner stays as it is.
 */
#include "call.h"
#include "put.h"
#include "runner.h"

/* So much below the caller's frame is painted. The first bytes are not: what paints and what looks stand there. They count as used. */
#ifndef STACK_SPAN
#define STACK_SPAN 16384
#endif
enum { GAP = 256, PAINT = 0xA5 };

static uint64_t most;

void __real_make_call(struct call *call);
void __wrap_make_call(struct call *call);
int __real_run_vectors(uint8_t *memory, uint64_t capacity);
int __wrap_run_vectors(uint8_t *memory, uint64_t capacity);

static void paint(volatile uint8_t *low, volatile uint8_t *high)
{
    for (; low < high; low++) {
        *low = PAINT;
    }
}

static volatile uint8_t *untouched(volatile uint8_t *low, volatile uint8_t *high)
{
    while (low < high && *low == PAINT) {
        low++;
    }
    return low;
}

void __wrap_make_call(struct call *call)
{
    volatile uint8_t here = 0;
    uintptr_t frame = (uintptr_t)&here;
    volatile uint8_t *low = (volatile uint8_t *)(frame - STACK_SPAN), *high = (volatile uint8_t *)(frame - GAP);
    uint64_t used;
    paint(low, high);
    __real_make_call(call);
    used = (uint64_t)(frame - (uintptr_t)untouched(low, high));
    if (used > most) {
        most = used;
    }
    (void)here;
}

int __wrap_run_vectors(uint8_t *memory, uint64_t capacity)
{
    int status = __real_run_vectors(memory, capacity);
    put_text("stack ");
    put_number(most);
    put_byte('\n');
    return status;
}
