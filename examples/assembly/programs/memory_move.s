# memmove: copies bytes to a place that may overlap with theirs, in the direction that is safe.
        .data
text:   .ascii  "abcdefghijklmnop\n"
        .equ    LENGTH, . - text

        .text
        .globl  _start
_start:
        la      a0, text + 4            # up, by 4
        la      a1, text
        li      a2, 8
        call    memmove
        call    show                    # abcdabcdefghmnop
        la      a0, text
        la      a1, text + 6            # down, by 6
        li      a2, 10
        call    memmove
        call    show
        la      a0, text + 2
        mv      a1, a0                  # nowhere
        li      a2, 5
        call    memmove
        call    show
        li      a0, 0
        li      a7, 93
        ecall

memmove:
        mv      t0, a0
        bleu    a0, a1, forward
        add     t0, a0, a2
        add     a1, a1, a2
backward:
        beq     t0, a0, 1f
        addi    a1, a1, -1
        addi    t0, t0, -1
        lbu     t1, 0(a1)
        sb      t1, 0(t0)
        j       backward
forward:
        beqz    a2, 1f
        lbu     t1, 0(a1)
        sb      t1, 0(t0)
        addi    a1, a1, 1
        addi    t0, t0, 1
        addi    a2, a2, -1
        j       forward
1:      ret

show:
        li      a0, 1
        la      a1, text
        li      a2, LENGTH
        li      a7, 64
        ecall
        ret
