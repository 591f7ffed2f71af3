/* The counter of each processor that is measured. */
#include "counter.h"

#if defined(__aarch64__)

/* The cycle counter of the performance monitors has a tick a nanosecond under the emulator. */
const unsigned counter_tick = 1;

void counter_start(void)
{
    const uint64_t enabled_reset_64_bits = 1 | 1 << 2 | 1 << 6, cycles = UINT64_C(1) << 31;
    __asm__ volatile("msr pmccfiltr_el0, xzr\nmsr pmcntenset_el0, %1\nmsr pmcr_el0, %0\nisb" : : "r"(enabled_reset_64_bits), "r"(cycles) : "memory");
}

uint64_t counter_now(void)
{
    uint64_t ticks;
    __asm__ volatile("isb\nmrs %0, pmccntr_el0" : "=r"(ticks) : : "memory");
    return ticks;
}

void counter_spend(unsigned rounds)
{
    __asm__ volatile("1: subs %w0, %w0, #1\nb.ne 1b" : "+r"(rounds) : : "cc");
}

#elif defined(__riscv)

const unsigned counter_tick = 1;

void counter_start(void)
{
}

uint64_t counter_now(void)
{
    uint64_t instructions;
    __asm__ volatile("csrr %0, minstret" : "=r"(instructions) : : "memory");
    return instructions;
}

void counter_spend(unsigned rounds)
{
    __asm__ volatile("1: addi %0, %0, -1\nbnez %0, 1b" : "+r"(rounds));
}

#else

/* The first timer of the board mps2 counts down at 25 MHz. It wraps after 171 seconds, which no run reaches. */
const unsigned counter_tick = 40;

static volatile uint32_t *const control = (volatile uint32_t *)0x40000000, *const value = (volatile uint32_t *)0x40000004,
                                *const reload = (volatile uint32_t *)0x40000008;

void counter_start(void)
{
    *reload = UINT32_MAX;
    *value = UINT32_MAX;
    *control = 1;
}

uint64_t counter_now(void)
{
    return UINT32_MAX - *value;
}

void counter_spend(unsigned rounds)
{
    __asm__ volatile("1: subs %0, %0, #1\nbne 1b" : "+r"(rounds) : : "cc");
}

#endif
