# Turns the 32 bits of a word around, and prints them before and after.
    .equ FIRST, 0xb0000007

.text
.globl _start
_start:
    li   s0, FIRST
    mv   a0, s0
    call print_bits
    mv   a0, s0
    call reverse
    mv   s1, a0
    call print_bits
    mv   a0, s1
    call reverse
    xor  a0, a0, s0             # nothing is left
    snez a0, a0
    li   a7, 93
    ecall

reverse:
    li   t0, 32
    mv   t1, a0
    li   a0, 0
1:  slli a0, a0, 1
    andi t2, t1, 1
    or   a0, a0, t2
    srli t1, t1, 1
    addi t0, t0, -1
    bgtz t0, 1b
    ret

print_bits:
    addi sp, sp, -48
    mv   t0, sp
    li   t1, 32
2:  slt  t2, a0, x0             # the highest bit
    addi t2, t2, '0'
    sb   t2, 0(t0)
    slli a0, a0, 1
    addi t0, t0, 1
    addi t1, t1, -1
    bnez t1, 2b
    li   t2, '\n'
    sb   t2, 0(t0)
    li   a0, 1
    mv   a1, sp
    li   a2, 33
    li   a7, 64
    ecall
    addi sp, sp, 48
    ret
