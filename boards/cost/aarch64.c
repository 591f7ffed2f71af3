/* Semihosting of the emulator of 64-bit Arm, as boards/bare/board.c has it for the other processors. */
#include "board.h"
#include "put.h"
#include <stdint.h>

enum { SYS_WRITE0 = 0x04, SYS_EXIT = 0x18, STOPPED = 0x20026 };

static uint64_t semihost(uint32_t operation, const void *argument)
{
    register uint64_t x0 __asm__("x0") = operation;
    register const void *x1 __asm__("x1") = argument;
    __asm__ volatile("hlt #0xf000" : "+r"(x0) : "r"(x1) : "memory");
    return x0;
}

void put_byte(int byte)
{
    const char text[2] = {(char)byte, '\0'};
    semihost(SYS_WRITE0, text);
}

void board_exit(int status)
{
    const uint64_t ended[2] = {STOPPED, (uint64_t)status};
    semihost(SYS_EXIT, ended);
    for (;;) {
    }
}

void board_fault(void)
{
    put_text("a fault of the processor\n");
    board_exit(3);
}
