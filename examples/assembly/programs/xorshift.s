# Throws a die 40 times by Marsaglia's xorshift, and prints how often each side came.
    .data
state:  .word 2463534242
    .bss
    .align 2
counts: .space 6 * 4

    .text
    .globl _start
_start:
    li   s0, 40
throw:
    call random
    li   t0, 6
    remu a0, a0, t0
    slli a0, a0, 2
    la   t0, counts
    add  t0, t0, a0
    lw   t1, (t0)
    addi t1, t1, 1
    sw   t1, (t0)
    addi s0, s0, -1
    bnez s0, throw

    li   s0, 1
    la   s1, counts
print_side:
    mv   a0, s0
    li   a1, ':'
    call print_int
    lw   a0, (s1)
    li   a1, '\n'
    call print_int
    addi s1, s1, 4
    addi s0, s0, 1
    li   t0, 6
    ble  s0, t0, print_side
    call random                 # the next number as it is
    li   a1, '\n'
    call print_int
    li   a0, 0
    li   a7, 93
    ecall

random:
    lw   a0, state
    slli t0, a0, 13
    xor  a0, a0, t0
    srli t0, a0, 17
    xor  a0, a0, t0
    slli t0, a0, 5
    xor  a0, a0, t0
    sw   a0, state, t0
    ret

# Prints the unsigned number a0, and the character a1 behind it.
print_int:
    addi sp, sp, -16
    addi t0, sp, 15
    sb   a1, 0(t0)
    li   t1, 10
1:  remu t2, a0, t1
    addi t2, t2, '0'
    addi t0, t0, -1
    sb   t2, 0(t0)
    divu a0, a0, t1
    bnez a0, 1b
    addi a2, sp, 16
    sub  a2, a2, t0
    mv   a1, t0
    li   a0, 1
    li   a7, 64
    ecall
    addi sp, sp, 16
    ret
