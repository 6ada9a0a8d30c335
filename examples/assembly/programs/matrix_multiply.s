# Multiplies two matrices of 3 by 3, and prints the product and then its transpose.
.equ N, 3

    .data
    .align 2
a:  .word 1, 2, 3
    .word 4, 5, 6
    .word 7, 8, 9
b:  .word -1, 0, 2
    .word 0, 3, 0
    .word 5, 0, -4
    .lcomm c, N * N * 4

    .text
    .globl _start
_start:
    la   s6, c                  # &c[i][j]
    li   s0, 0                  # i
row:
    li   s1, 0                  # j
column:
    li   t0, 0                  # k
    li   t1, 0                  # sum
    la   t5, a
    la   t6, b
product:
    li   t4, N * 4
    mul  t2, s0, t4
    add  t2, t2, t5
    lw   t2, 0(t2)              # a[i][k]
    slli t3, s1, 2
    add  t3, t3, t6
    lw   t3, 0(t3)              # b[k][j]
    mul  t2, t2, t3
    add  t1, t1, t2
    addi t5, t5, 4
    add  t6, t6, t4
    addi t0, t0, 1
    li   t2, N
    blt  t0, t2, product
    sw   t1, 0(s6)
    addi s6, s6, 4
    addi s1, s1, 1
    blt  s1, t2, column
    addi s0, s0, 1
    blt  s0, t2, row
    li   a1, 4
    li   a2, N * 4
    call show
    li   a1, N * 4
    li   a2, 4
    call show
    li   a0, 0
    li   a7, 93
    ecall

# Prints c, with steps of a1 bytes in a line and of a2 bytes between lines.
show:
    addi sp, sp, -4
    sw   ra, (sp)
    la   s0, c
    mv   s1, a1
    mv   s2, a2
    li   s3, N
1:  mv   s4, s0
    li   s5, N
2:  lw   a0, (s4)
    li   a1, ' '
    addi s5, s5, -1
    bnez s5, 3f
    li   a1, '\n'
3:  call print_signed
    add  s4, s4, s1
    bnez s5, 2b
    add  s0, s0, s2
    addi s3, s3, -1
    bnez s3, 1b
    lw   ra, (sp)
    addi sp, sp, 4
    ret

# print_signed(a0 = number, a1 = the character behind it)
print_signed:
        addi    sp, sp, -16
        addi    t0, sp, 15
        sb      a1, 0(t0)
        li      t1, 10
        srai    t3, a0, 31              # -1 for a negative number
        xor     a0, a0, t3
        sub     a0, a0, t3              # its absolute value
ps_digit:
        remu    t2, a0, t1
        addi    t2, t2, '0'
        addi    t0, t0, -1
        sb      t2, 0(t0)
        divu    a0, a0, t1
        bne     a0, zero, ps_digit
        beq     t3, zero, ps_write
        addi    t0, t0, -1
        li      t2, '-'
        sb      t2, 0(t0)
ps_write:
        li      a0, 1
        mv      a1, t0
        addi    a2, sp, 16
        sub     a2, a2, t0
        li      a7, 64
        ecall
        addi    sp, sp, 16
        ret
