@ Start-up of a Cortex-M: the table of exceptions, memory made ready, then main. It serves an emulator as it is, and is a start for a real board.
    .syntax unified
    .section .exceptions, "a"
    .word stack_top
    .word reset
    .rept 14
    .word fault
    .endr

    .text
    .thumb_func
    .global reset
reset:
    ldr r0, =bss_start
    ldr r1, =bss_end
    movs r2, #0
1:  cmp r0, r1
    bhs 2f
    str r2, [r0]
    adds r0, #4
    b 1b
2:  ldr r0, =data_load
    ldr r1, =data_start
    ldr r2, =data_end
3:  cmp r1, r2
    bhs 4f
    ldr r3, [r0]
    str r3, [r1]
    adds r0, #4
    adds r1, #4
    b 3b
4:
#ifdef TRAP_UNALIGNED
    @ CCR.UNALIGN_TRP: a load or store that is not aligned becomes a fault, as it is on the M0+.
    ldr r0, =0xE000ED14
    ldr r1, [r0]
    movs r2, #8
    orrs r1, r2
    str r1, [r0]
#endif
    bl main
5:  b 5b

    .thumb_func
fault:
    bl board_fault
6:  b 6b
