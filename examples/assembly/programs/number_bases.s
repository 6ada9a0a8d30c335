# Prints numbers in base 16, 10, 8 and 2.
        .section .rodata
        .align  2
values: .word   0, 255, 0xdeadbeef, 1000
bases:  .byte   16, 10, 8, 2
digit:  .ascii  "0123456789abcdef"

        .text
        .globl  _start
_start: la      s0, values
        li      s1, 4
row:    la      s2, bases
        li      s3, 4
column: lw      a0, 0(s0)
        lbu     a1, 0(s2)
        jal     print_base
        li      a0, ' '
        addi    s3, s3, -1
        bnez    s3, 1f
        li      a0, '\n'
1:      jal     print_char
        addi    s2, s2, 1
        bnez    s3, column
        addi    s0, s0, 4
        addi    s1, s1, -1
        bnez    s1, row
        li      a0, 0
        li      a7, 93
        ecall

print_base:
        addi    sp, sp, -48
        addi    t0, sp, 48
        la      t1, digit
2:      remu    t2, a0, a1
        add     t2, t2, t1
        lb      t2, (t2)
        addi    t0, t0, -1
        sb      t2, (t0)
        divu    a0, a0, a1
        bnez    a0, 2b
        addi    a2, sp, 48
        sub     a2, a2, t0
        mv      a1, t0
        li      a0, 1
        li      a7, 64
        ecall
        addi    sp, sp, 48
        ret

# print_char(a0)
print_char:
    la   a1, one_char
    sb   a0, 0(a1)
    li   a0, 1                  # standard output
    li   a2, 1                  # one byte
    li   a7, 64                 # write
    ecall
    ret

    .lcomm one_char, 1
