# How many bits of some words are set, counted one by one and in parallel, and the parity.
        .section .rodata
        .balign 4
words:  .word   0, 1, 0xff, 0x80000001, 0xffffffff, 0x12345678, 0b1011
words_end:

        .text
        .globl  _start
_start: la      s0, words
loop:   lw      a0, 0(s0)
        call    kernighan
        mv      s1, a0
        lw      a0, 0(s0)
        call    parallel
        bne     a0, s1, differ
        li      a1, ' '
        call    print_int
        andi    a0, s1, 1
        li      a1, '\n'
        call    print_int
        addi    s0, s0, 4
        la      t0, words_end
        bltu    s0, t0, loop
        li      a0, 0
        li      a7, 93
        ecall
differ: li      a0, 1
        li      a7, 93
        ecall

kernighan:
        li      t0, 0
1:      beqz    a0, 2f
        addi    t1, a0, -1
        and     a0, a0, t1
        addi    t0, t0, 1
        j       1b
2:      mv      a0, t0
        ret

parallel:
        li      t1, 0x55555555
        srli    t0, a0, 1
        and     t0, t0, t1
        sub     a0, a0, t0
        li      t1, 0x33333333
        and     t0, a0, t1
        srli    a0, a0, 2
        and     a0, a0, t1
        add     a0, a0, t0
        srli    t0, a0, 4
        add     a0, a0, t0
        li      t1, 0x0f0f0f0f
        and     a0, a0, t1
        li      t1, 0x01010101
        mul     a0, a0, t1
        srli    a0, a0, 24
        ret

# Prints the unsigned number a0, and the character a1 behind it.
print_int:
    addi sp, sp, -16
    addi t0, sp, 15
    sb   a1, 0(t0)
    li   t1, 10
1:  remu t2, a0, t1
    addi t2, t2, '0'
    addi t0, t0, -1
    sb   t2, 0(t0)
    divu a0, a0, t1
    bnez a0, 1b
    addi a2, sp, 16
    sub  a2, a2, t0
    mv   a1, t0
    li   a0, 1
    li   a7, 64
    ecall
    addi sp, sp, 16
    ret
