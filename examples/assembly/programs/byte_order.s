# Turns the bytes of a word around, and rotates words to the left and to the right.
        .text
        .globl  _start
_start:
        li      a0, 0x12345678
        call    swap
        call    print_hex               # 78563412
        li      a0, 0x80000001
        li      a1, 4
        call    rotate_left
        call    print_hex               # 00000018
        li      a0, 0x80000001
        li      a1, 1
        call    rotate_right
        call    print_hex               # c0000000
        li      a0, 0xcafe
        li      a1, 0
        call    rotate_left
        call    print_hex               # 0000cafe
        li      a0, 0
        li      a7, 93
        ecall

swap:
        slli    t0, a0, 24
        srli    t1, a0, 24
        or      t0, t0, t1
        li      t2, 0xff00
        and     t1, a0, t2
        slli    t1, t1, 8
        or      t0, t0, t1
        srli    t1, a0, 8
        and     t1, t1, t2
        or      a0, t0, t1
        ret

rotate_right:
        neg     a1, a1
rotate_left:
        sll     t0, a0, a1
        neg     a1, a1
        srl     t1, a0, a1
        or      a0, t0, t1
        ret

print_hex:
        la      t0, word_end
        li      t1, 8
1:      andi    t2, a0, 15
        li      t3, 10
        blt     t2, t3, 2f
        addi    t2, t2, 'a' - '0' - 10
2:      addi    t2, t2, '0'
        addi    t0, t0, -1
        sb      t2, 0(t0)
        srli    a0, a0, 4
        addi    t1, t1, -1
        bnez    t1, 1b
        li      a0, 1
        mv      a1, t0
        li      a2, 9
        li      a7, 64
        ecall
        ret

        .data
word:   .space  8
word_end:
        .byte   '\n'
