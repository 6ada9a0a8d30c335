# Reads signed numbers, one on a line, and prints their sum. (atoi)
    .bss
    .align 2
buffer: .space 200

    .text
    .globl _start
_start:
    li   a0, 0
    la   a1, buffer
    li   a2, 199
    li   a7, 63
    ecall
    la   s0, buffer
    add  t0, s0, a0
    sb   zero, 0(t0)            # a zero behind the text
    li   s1, 0
next_line:
    lbu  t0, 0(s0)
    beqz t0, print_sum
    call atoi
    add  s1, s1, a0
    j    next_line
print_sum:
    mv   a0, s1
    li   a1, '\n'
    call print_signed
    li   a0, 0
    li   a7, 93
    ecall

# The number at s0, which goes on behind the character that ends it.
atoi:
    li   a0, 0
    li   t1, 10
    li   t3, '-'
    lbu  t0, 0(s0)
    sub  t4, t0, t3             # 0 for a negative number
    bnez t4, digit
    addi s0, s0, 1
digit:
    lbu  t0, 0(s0)
    addi s0, s0, 1
    addi t0, t0, -'0'
    bgeu t0, t1, no_digit
    mul  a0, a0, t1
    add  a0, a0, t0
    j    digit
no_digit:
    bnez t4, positive
    neg  a0, a0
positive:
    ret

# print_signed(a0 = number, a1 = the character behind it)
print_signed:
        addi    sp, sp, -16
        addi    t0, sp, 15
        sb      a1, 0(t0)
        li      t1, 10
        srai    t3, a0, 31              # -1 for a negative number
        xor     a0, a0, t3
        sub     a0, a0, t3              # its absolute value
ps_digit:
        remu    t2, a0, t1
        addi    t2, t2, '0'
        addi    t0, t0, -1
        sb      t2, 0(t0)
        divu    a0, a0, t1
        bne     a0, zero, ps_digit
        beq     t3, zero, ps_write
        addi    t0, t0, -1
        li      t2, '-'
        sb      t2, 0(t0)
ps_write:
        li      a0, 1
        mv      a1, t0
        addi    a2, sp, 16
        sub     a2, a2, t0
        li      a7, 64
        ecall
        addi    sp, sp, 16
        ret
