/* The memory of the emulated board virt of 64-bit Arm. The emulator writes its own table at the start of the memory. */
ENTRY(start)
MEMORY { ALL (rwx) : ORIGIN = 0x40200000, LENGTH = 16M }
SECTIONS
{
    .text : { KEEP(*(.start)) *(.text*) } > ALL
    .rodata : { *(.rodata*) } > ALL
    .data : { *(.data*) . = ALIGN(8); } > ALL
    .bss (NOLOAD) : { . = ALIGN(16); bss_start = .; *(.bss*) *(COMMON) . = ALIGN(16); bss_end = .; } > ALL
    stack_top = ORIGIN(ALL) + LENGTH(ALL);
}
