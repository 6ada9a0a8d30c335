# Sorts the letters of a string by insertion.
        .data
text:   .string "the quick brown fox jumps over the lazy dog"
        SIZE = . - text                 # with the zero
        LENGTH = SIZE - 1

        .text
        .globl  _start
_start:
        la      s0, text
        li      s1, 1                   # letters before s1 are sorted
outer:
        li      t0, LENGTH
        bgeu    s1, t0, sorted
        add     t1, s0, s1
        lbu     t2, 0(t1)               # the letter to insert
inner:
        beq     t1, s0, place
        lbu     t3, -1(t1)
        bleu    t3, t2, place
        sb      t3, 0(t1)
        addi    t1, t1, -1
        j       inner
place:
        sb      t2, 0(t1)
        addi    s1, s1, 1
        j       outer
sorted:
        li      t0, '\n'
        add     t1, s0, s1
        sb      t0, (t1)                # in the place of the zero
        li      a0, 1
        mv      a1, s0
        addi    a2, s1, 1
        li      a7, 64
        ecall
        li      a0, LENGTH
        li      a7, 93
        ecall
