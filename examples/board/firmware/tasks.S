# A start for the scheduler: a trap keeps all registers of a task in its frame, whose address
# mscratch has, and schedule(frame, cause) answers the frame of the task that goes on.
    .section .text.start
    .globl _start
_start:
    la sp, stack_end
    la t0, trap_entry
    csrw mtvec, t0
    la t0, bss_start
    la t1, bss_end
1:  bgeu t0, t1, 2f
    sw zero, 0(t0)
    addi t0, t0, 4
    j 1b
2:  call main
    j finish

# start_task(frame): goes to the first task
    .globl start_task
start_task:
    j restore

    .align 2
trap_entry:
    csrrw a0, mscratch, a0
    .irp n, 1,2,3,4,5,6,7,8,9,11,12,13,14,15,16,17,18,19,20,21,22,23,24,25,26,27,28,29,30,31
    sw x\n, 4*\n(a0)
    .endr
    csrr t0, mscratch
    sw t0, 40(a0)
    csrr t0, mepc
    sw t0, 0(a0)
    csrr a1, mcause
    la sp, stack_end
    call schedule

restore:
    csrw mscratch, a0
    lw t0, 0(a0)
    csrw mepc, t0
    .irp n, 1,2,3,4,5,6,7,8,9,11,12,13,14,15,16,17,18,19,20,21,22,23,24,25,26,27,28,29,30,31
    lw x\n, 4*\n(a0)
    .endr
    lw a0, 40(a0)
    mret

# holds(seed): has seed + n in each register xn but sp and a0, and answers the seed where each still has
# it, and else 0
    .globl holds
holds:
    addi sp, sp, -128
    .irp n, 1,3,4,8,9,18,19,20,21,22,23,24,25,26,27
    sw x\n, 4*\n(sp)
    .endr
    .irp n, 1,3,4,5,6,7,8,9,11,12,13,14,15,16,17,18,19,20,21,22,23,24,25,26,27,28,29,30,31
    addi x\n, a0, \n
    .endr
    .irp n, 1,3,4,5,6,7,8,9,11,12,13,14,15,16,17,18,19,20,21,22,23,24,25,26,27,28,29,30,31
    addi x\n, x\n, -\n
    bne x\n, a0, 1f
    .endr
    j 2f
1:  li a0, 0
2:  .irp n, 1,3,4,8,9,18,19,20,21,22,23,24,25,26,27
    lw x\n, 4*\n(sp)
    .endr
    addi sp, sp, 128
    ret

# finish(status): ends the program
    .globl finish
finish:
    li t0, 0x100000
    beqz a0, 1f
    slli a0, a0, 16
    li t1, 0x3333
    or a0, a0, t1
    sw a0, 0(t0)
    j .
1:  li a0, 0x5555
    sw a0, 0(t0)
    j .
