# Looks who has three in a row on some boards: X, O, or nobody.
        .section .rodata
boards: .ascii  "XX.OO.X.."
        .ascii  "XOXOXOOXX"
        .ascii  "OOO.XX.X."
        .ascii  "XXOXO.O.."
        .ascii  "XOXXOOOXX"
boards_end:
lines:  .byte   0, 1, 2,  3, 4, 5,  6, 7, 8
        .byte   0, 3, 6,  1, 4, 7,  2, 5, 8
        .byte   0, 4, 8,  2, 4, 6
lines_end:
wins:   .ascii  " wins\n"

        .text
        .globl  _start
_start: la      s0, boards
1:      mv      a0, s0
        call    winner
        addi    sp, sp, -16
        sb      a0, 0(sp)
        li      a0, 1
        mv      a1, sp
        li      a2, 1
        li      a7, 64
        ecall
        addi    sp, sp, 16
        li      a0, 1
        la      a1, wins
        li      a2, 6
        ecall
        addi    s0, s0, 9
        la      t0, boards_end
        bltu    s0, t0, 1b
        li      a0, 0
        li      a7, 93
        ecall

winner: la      t0, lines
        la      t1, lines_end
2:      lbu     t2, 0(t0)
        add     t2, t2, a0
        lbu     t2, 0(t2)
        lbu     t3, 1(t0)
        add     t3, t3, a0
        lbu     t3, 0(t3)
        lbu     t4, 2(t0)
        add     t4, t4, a0
        lbu     t4, 0(t4)
        addi    t5, t2, -'.'
        beqz    t5, 3f
        bne     t2, t3, 3f
        bne     t3, t4, 3f
        mv      a0, t2
        ret
3:      addi    t0, t0, 3
        bltu    t0, t1, 2b
        li      a0, '-'
        ret
