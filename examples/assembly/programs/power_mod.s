# base^exponent modulo m, by squaring, for m below 65536.
        .equ    BASE, 0
        .equ    EXPONENT, 4
        .equ    MODULUS, 8
        .equ    SIZE, 12
        .data
table:  .word   2, 10, 1000
        .word   3, 200, 50
        .word   7, 0, 13
        .word   65534, 12345, 65521
        .word   5, 1000000006, 10007
        .word   0                       # the end

        .text
        .globl  _start
_start: la      s0, table
again:  lw      a0, BASE(s0)
        beq     a0, zero, finish
        lw      a1, EXPONENT(s0)
        lw      a2, MODULUS(s0)
        jal     power
        li      a1, '\n'
        jal     print_int
        addi    s0, s0, SIZE
        j       again
finish: li      a7, 93
        ecall

power:  li      t0, 1
        remu    a0, a0, a2
1:      andi    t1, a1, 1
        beqz    t1, 2f
        mul     t0, t0, a0
        remu    t0, t0, a2
2:      mul     a0, a0, a0
        remu    a0, a0, a2
        srli    a1, a1, 1
        bnez    a1, 1b
        mv      a0, t0
        ret

# Prints the unsigned number a0, and the character a1 behind it.
print_int:
    addi sp, sp, -16
    addi t0, sp, 15
    sb   a1, 0(t0)
    li   t1, 10
1:  remu t2, a0, t1
    addi t2, t2, '0'
    addi t0, t0, -1
    sb   t2, 0(t0)
    divu a0, a0, t1
    bnez a0, 1b
    addi a2, sp, 16
    sub  a2, a2, t0
    mv   a1, t0
    li   a0, 1
    li   a7, 64
    ecall
    addi sp, sp, 16
    ret
