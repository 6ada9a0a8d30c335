# A traffic light as an automaton: a table has the next state for each state and event. Events are
# t, the time is over, and b, somebody presses the button.
.equ STATES, 4
.equ EVENTS, 2

        .section .rodata
events: .string "tttbtttbbtt"
# a row for each state: after t, after b
next:   .byte   1, 1                    # 0, red
        .byte   2, 1                    # 1, red and yellow
        .byte   2, 3                    # 2, green, until somebody presses
        .byte   0, 3                    # 3, yellow
        .align  2
names:  .word   red, red_yellow, green, yellow
red:    .string "red\n"
red_yellow:
        .string "red and yellow\n"
green:  .string "green\n"
yellow: .string "yellow\n"

        .text
        .globl  _start
_start:
        la      s0, events
        li      s1, 0
again:
        la      t0, names
        slli    t1, s1, 2
        add     t0, t0, t1
        lw      a0, 0(t0)
        jal     print_string
        lbu     t0, 0(s0)
        beqz    t0, over
        addi    s0, s0, 1
        addi    t0, t0, -'b'
        seqz    t0, t0                  # 1 for b
        li      t1, EVENTS
        mul     t1, t1, s1
        add     t1, t1, t0
        la      t0, next
        add     t0, t0, t1
        lbu     s1, 0(t0)
        j       again
over:
        mv      a0, s1
        li      a7, 93
        ecall

# Prints the string at a0, which ends with a zero.
print_string:
    mv   a1, a0
    li   a2, 0
1:  add  t0, a1, a2
    lbu  t0, 0(t0)
    beqz t0, 2f
    addi a2, a2, 1
    j    1b
2:  li   a0, 1
    li   a7, 64
    ecall
    ret
