/* The memory of the emulated RISC-V board virt: 4 MB for code, 12 MB for data. */
ENTRY(start)
MEMORY
{
    CODE (rx) : ORIGIN = 0x80000000, LENGTH = 4M
    DATA (rw) : ORIGIN = 0x80400000, LENGTH = 12M
}
SECTIONS
{
    .text : { KEEP(*(.start)) *(.text*) } > CODE
    .rodata : { *(.rodata*) *(.srodata*) } > CODE
    .data : { *(.data*) *(.sdata*) . = ALIGN(4); } > DATA
    .bss (NOLOAD) : { . = ALIGN(4); bss_start = .; *(.bss*) *(.sbss*) *(COMMON) . = ALIGN(16); bss_end = .; } > DATA
    stack_top = ORIGIN(DATA) + LENGTH(DATA);
}
