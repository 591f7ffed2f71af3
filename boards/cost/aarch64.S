// Start-up of an Arm processor of 64 bits under an emulator: memory as usual memory, so that a place need not be aligned, registers for vectors, then main.
    .section .start, "ax"
    .global start
start:
    adrp x0, stack_top
    add x0, x0, :lo12:stack_top
    mov sp, x0
    adrp x0, faults
    add x0, x0, :lo12:faults
    msr vbar_el1, x0
    mov x0, #(3 << 20)              // CPACR_EL1.FPEN: no trap where vectors are used
    msr cpacr_el1, x0
    mov x0, #0xff                   // the one kind of memory: cached
    msr mair_el1, x0
    ldr x0, =0x803519               // addresses of 39 bits, pages of 4 KB, shared and cached tables, none for the upper half
    msr tcr_el1, x0
    adrp x0, translation
    add x0, x0, :lo12:translation
    msr ttbr0_el1, x0
    isb
    tlbi vmalle1
    dsb sy
    isb
    mrs x0, sctlr_el1
    ldr x1, =0x1005                 // translation and both caches
    orr x0, x0, x1
    bic x0, x0, #2                  // no trap where a place is not aligned
    msr sctlr_el1, x0
    isb
    adrp x0, bss_start
    add x0, x0, :lo12:bss_start
    adrp x1, bss_end
    add x1, x1, :lo12:bss_end
1:  cmp x0, x1
    b.hs 2f
    str xzr, [x0], #8
    b 1b
2:  bl main
3:  b 3b

    .balign 2048
faults:
    .rept 16
    bl board_fault
    .balign 128
    .endr

    .section .rodata.translation, "a"
    .balign 4096
translation:
    .quad 0                         // the first GB has the devices, and none is used
    .quad 0x40000701                // the second GB has the memory, at its own address
    .fill 510, 8, 0
