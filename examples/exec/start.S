# Where a program begins: at address 0 (_start), with sp at the end of the memory; and where firmware
# begins, which sets sp and the trap vector. Clears what has no bytes in the file, calls the
# constructors and main, and ends with its answer as the status. exit calls the destructors.
        .section .text.start, "ax"
        .globl _start
_start:
        .option push
        .option norelax
        la      gp, __global_pointer$
        .option pop
        la      tp, __tls_start
#ifdef FOR_BOARD
        la      sp, __stack
        la      t0, trap_entry
        csrw    mtvec, t0
#endif
        la      t0, __bss_start
        la      t1, __bss_end
1:      bgeu    t0, t1, 2f
        sw      zero, 0(t0)
        addi    t0, t0, 4
        j       1b
2:      call    __libc_init_array
        li      a0, 0
        li      a1, 0
        call    main
        call    exit

#ifdef FOR_BOARD
# A trap keeps the registers that C may change, and goes on where trap(mcause, mepc, mtval) says.
        .align  2
trap_entry:
        addi    sp, sp, -64
        .irp    n, 1,5,6,7,10,11,12,13,14,15
        sw      x\n, 4 * \n(sp)
        .endr
        sw      a6, 0(sp)
        sw      a7, 8(sp)
        sw      t3, 12(sp)
        sw      t4, 16(sp)
        sw      t5, 32(sp)
        sw      t6, 36(sp)
        csrr    a0, mcause
        csrr    a1, mepc
        csrr    a2, mtval
        call    trap
        csrw    mepc, a0
        .irp    n, 1,5,6,7,10,11,12,13,14,15
        lw      x\n, 4 * \n(sp)
        .endr
        lw      a6, 0(sp)
        lw      a7, 8(sp)
        lw      t3, 12(sp)
        lw      t4, 16(sp)
        lw      t5, 32(sp)
        lw      t6, 36(sp)
        addi    sp, sp, 64
        mret
#endif
