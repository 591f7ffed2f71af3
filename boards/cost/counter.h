/* A counter of instructions. Under qemu-system with -icount shift=0 an instruction takes a nanosecond, so the timers of the emulated processors count them. */
#ifndef COUNTER_H
#define COUNTER_H

#include <stdint.h>

/* Makes the counter run. */
void counter_start(void);

/* The ticks since counter_start. */
uint64_t counter_now(void);

/* Instructions a tick. */
extern const unsigned counter_tick;

/* Runs a loop of two instructions so many times, and few more around it. */
void counter_spend(unsigned rounds);

#endif
