# The day of the week of some dates, by Sakamoto's method.
        .section .rodata
        .align  2
dates:  .half   2000, 1, 1
        .half   1969, 7, 20
        .half   2024, 2, 29
        .half   1900, 3, 1
dates_end:
shifts: .byte   0, 3, 2, 5, 0, 3, 5, 1, 4, 6, 2, 4
names:  .ascii  "Sunday   \nMonday   \nTuesday  \nWednesday\nThursday \nFriday   \nSaturday \n"
        .equ    NAME, 10                # bytes for each

        .text
        .globl  _start
_start: la      s0, dates
        la      s1, dates_end
1:      lhu     a0, 0(s0)               # year
        lhu     a1, 2(s0)               # month
        lhu     a2, 4(s0)               # day
        call    weekday
        li      t0, NAME
        mul     t0, t0, a0
        la      a1, names
        add     a1, a1, t0
        li      a0, 1
        li      a2, NAME
        li      a7, 64
        ecall
        addi    s0, s0, 6
        bne     s0, s1, 1b
        li      a0, 0
        li      a7, 93
        ecall

weekday:
        slti    t0, a1, 3               # January and February belong to the year before
        sub     a0, a0, t0
        la      t1, shifts - 1
        add     t1, t1, a1
        lbu     t1, 0(t1)
        add     t1, t1, a2
        add     t1, t1, a0
        srli    t2, a0, 2
        add     t1, t1, t2
        li      t3, 100
        divu    t2, a0, t3
        sub     t1, t1, t2
        li      t3, 400
        divu    t2, a0, t3
        add     t1, t1, t2
        li      t3, 7
        remu    a0, t1, t3
        ret
