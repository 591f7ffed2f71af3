/* Where the parts of a program stand on a Cortex-M: the exceptions first, the stack at the end of the memory for data. */
ENTRY(reset)
SECTIONS
{
    .text : { KEEP(*(.exceptions)) *(.text*) *(.rodata*) . = ALIGN(4); } > CODE
    .ARM.exidx : { *(.ARM.exidx*) } > CODE
    data_load = LOADADDR(.data);
    .data : { data_start = .; *(.data*) . = ALIGN(4); data_end = .; } > DATA AT > CODE
    .bss (NOLOAD) : { bss_start = .; *(.bss*) *(COMMON) . = ALIGN(8); bss_end = .; } > DATA
    stack_top = ORIGIN(DATA) + LENGTH(DATA);
}
