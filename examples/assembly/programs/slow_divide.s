# Division without an instruction for it: by subtractions, and by shifts.
    .data
    .align 2
tasks:  .word 100, 7,  3, 5,  65535, 256,  4096, 64,  99, 1
tasks_end:

    .text
    .globl _start
_start:
    la   s0, tasks
1:  lw   a0, 0(s0)
    lw   a1, 4(s0)
    call by_subtraction
    mv   s1, a0
    mv   s2, a1
    lw   a0, 0(s0)
    lw   a1, 4(s0)
    call by_shifts
    bne  a0, s1, wrong
    bne  a1, s2, wrong
    li   a1, ' '
    call print_int
    mv   a0, s2
    li   a1, '\n'
    call print_int
    addi s0, s0, 8
    la   t0, tasks_end
    blt  s0, t0, 1b
    li   a0, 0
    j    exit
wrong:
    li   a0, 1
exit:
    li   a7, 93
    ecall

by_subtraction:                 # the quotient in a0, the remainder in a1
    li   t0, 0
2:  bltu a0, a1, 3f
    sub  a0, a0, a1
    addi t0, t0, 1
    j    2b
3:  mv   a1, a0
    mv   a0, t0
    ret

by_shifts:
    li   t0, 0                  # remainder
    li   t1, 32
4:  slli t0, t0, 1
    srli t2, a0, 31
    or   t0, t0, t2
    slli a0, a0, 1
    bltu t0, a1, 5f
    sub  t0, t0, a1
    ori  a0, a0, 1
5:  addi t1, t1, -1
    bnez t1, 4b
    mv   a1, t0
    ret

# Prints the unsigned number a0, and the character a1 behind it.
print_int:
    addi sp, sp, -16
    addi t0, sp, 15
    sb   a1, 0(t0)
    li   t1, 10
1:  remu t2, a0, t1
    addi t2, t2, '0'
    addi t0, t0, -1
    sb   t2, 0(t0)
    divu a0, a0, t1
    bnez a0, 1b
    addi a2, sp, 16
    sub  a2, a2, t0
    mv   a1, t0
    li   a0, 1
    li   a7, 64
    ecall
    addi sp, sp, 16
    ret
