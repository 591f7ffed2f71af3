# Start-up of a RISC-V processor under an emulator: the stack, memory made ready, then main. A trap ends the run.
    .option arch, +zicsr
    .section .start, "ax"
    .global start
start:
    la sp, stack_top
    la t0, trapped
    csrw mtvec, t0
    la t0, bss_start
    la t1, bss_end
1:  bgeu t0, t1, 2f
    sw zero, 0(t0)
    addi t0, t0, 4
    j 1b
2:  call main
3:  j 3b
    .align 2
trapped:
    call board_fault
4:  j 4b
