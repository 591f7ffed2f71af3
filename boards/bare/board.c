/* Semihosting of Arm's and RISC-V's emulators: a real board has its own wire in this place. */
#include "board.h"
#include "put.h"
#include <stdint.h>

enum { SYS_OPEN = 0x01, SYS_WRITE0 = 0x04, SYS_READ = 0x06, SYS_EXIT_EXTENDED = 0x20, STOPPED = 0x20026 };

#ifndef BOARD_FILE
#define BOARD_FILE "vectors.txt"
#endif

static uintptr_t semihost(uintptr_t operation, const void *argument)
{
#if defined(__riscv)
    register uintptr_t a0 __asm__("a0") = operation;
    register const void *a1 __asm__("a1") = argument;
    __asm__ volatile(".option push\n.option norvc\n.balign 16\nslli x0, x0, 0x1f\nebreak\nsrai x0, x0, 7\n.option pop" : "+r"(a0) : "r"(a1) : "memory");
    return a0;
#else
    register uintptr_t r0 __asm__("r0") = operation;
    register const void *r1 __asm__("r1") = argument;
    __asm__ volatile("bkpt 0xAB" : "+r"(r0) : "r"(r1) : "memory");
    return r0;
#endif
}

static char written[129];
static unsigned count;

static void hand_over(void)
{
    written[count] = '\0';
    semihost(SYS_WRITE0, written);
    count = 0;
}

void put_byte(int byte)
{
    written[count++] = (char)byte;
    if (count == sizeof written - 1 || byte == '\n') {
        hand_over();
    }
}

int board_read(void)
{
    static const char name[] = BOARD_FILE;
    static uint8_t bytes[256];
    static unsigned at, held;
    static uintptr_t file;
    static int is_open;
    if (!is_open) {
        const uintptr_t opened[3] = {(uintptr_t)name, 1, sizeof name - 1}; /* rb */
        file = semihost(SYS_OPEN, opened);
        is_open = 1;
    }
    if (at == held) {
        const uintptr_t wanted[3] = {file, (uintptr_t)bytes, sizeof bytes};
        uintptr_t left = semihost(SYS_READ, wanted);
        held = left > sizeof bytes ? 0 : (unsigned)(sizeof bytes - left);
        at = 0;
        if (held == 0) {
            return -1;
        }
    }
    return bytes[at++];
}

void board_exit(int status)
{
    const uintptr_t ended[2] = {STOPPED, (uintptr_t)status};
    hand_over();
    semihost(SYS_EXIT_EXTENDED, ended);
    for (;;) {
    }
}

void board_fault(void)
{
    put_text("a fault of the processor\n");
    board_exit(3);
}
