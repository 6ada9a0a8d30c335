# The greatest common divisor of each pair in a table, by Euclid's algorithm.
    .data
pairs:
    .word 48, 18
    .word 270, 192
    .word 17, 5
    .word 0, 9
    .word 1000000, 65536
pairs_end:

    .text
    .globl _start
_start:
    la   s0, pairs
    la   s1, pairs_end
next_pair:
    lw   a0, 0(s0)
    lw   a1, 4(s0)
    call gcd
    call print_int
    li   a0, '\n'
    call putchar
    addi s0, s0, 8
    bltu s0, s1, next_pair
    li   a0, 0
    li   a7, 93
    ecall

gcd:
    beqz a1, 1f
    remu t0, a0, a1
    mv   a0, a1
    mv   a1, t0
    j    gcd
1:  ret

# Prints the unsigned number a0 in decimal digits.
print_int:
    addi sp, sp, -16
    addi a1, sp, 16             # the digits are made from the end
    li   t1, 10
1:  remu t2, a0, t1
    addi t2, t2, '0'
    addi a1, a1, -1
    sb   t2, 0(a1)
    divu a0, a0, t1
    bnez a0, 1b
    addi a2, sp, 16
    sub  a2, a2, a1
    li   a0, 1
    li   a7, 64
    ecall
    addi sp, sp, 16
    ret

# Prints the character a0.
putchar:
    addi sp, sp, -16
    sb   a0, 15(sp)
    li   a0, 1
    addi a1, sp, 15
    li   a2, 1
    li   a7, 64
    ecall
    addi sp, sp, 16
    ret
