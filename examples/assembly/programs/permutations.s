# All orders of four letters, by swaps and recursion. The status is how many there are.
        .data
word:   .ascii  "abcd\n"
        .equ    LETTERS, 4

        .text
        .globl  _start
_start: li      s2, 0
        la      s3, word
        mv      a0, zero
        call    permute
        mv      a0, s2
        li      a7, 93
        ecall

permute:                                # a0 letters stand already
        li      t0, LETTERS
        beq     a0, t0, show
        addi    sp, sp, -16
        sw      ra, 12(sp)
        sw      s0, 8(sp)
        sw      s1, 4(sp)
        mv      s0, a0
        mv      s1, a0
1:      jal     swap
        addi    a0, s0, 1
        call    permute
        jal     swap
        addi    s1, s1, 1
        li      t0, LETTERS
        bne     s1, t0, 1b
        lw      s1, 4(sp)
        lw      s0, 8(sp)
        lw      ra, 12(sp)
        addi    sp, sp, 16
        ret

swap:   add     t0, s3, s0              # word[s0] and word[s1]
        add     t1, s3, s1
        lb      t2, 0(t0)
        lb      t3, 0(t1)
        sb      t3, 0(t0)
        sb      t2, 0(t1)
        ret

show:   addi    s2, s2, 1
        li      a0, 1
        mv      a1, s3
        li      a2, LETTERS + 1
        li      a7, 64
        ecall
        ret
