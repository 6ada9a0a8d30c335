# Pascal's triangle: each row is made of the one before, in place, from its end.
    .equ ROWS, 10
    .comm row, 4 * (ROWS + 1), 4

    .text
    .globl _start
_start:
    la   s0, row
    li   t0, 1
    sw   t0, 0(s0)
    li   s1, 0                  # the number of the row
next_row:
    li   s2, 0
print_row:
    slli t0, s2, 2
    add  t0, t0, s0
    lw   a0, 0(t0)
    li   a1, ' '
    blt  s2, s1, 1f
    li   a1, '\n'
1:  call print_int
    addi s2, s2, 1
    ble  s2, s1, print_row

    addi s1, s1, 1
    li   t0, ROWS
    bge  s1, t0, finished
    slli t0, s1, 2
    add  t0, t0, s0
2:  lw   t1, 0(t0)
    lw   t2, -4(t0)
    add  t1, t1, t2
    sw   t1, 0(t0)
    addi t0, t0, -4
    bne  t0, s0, 2b
    j    next_row
finished:
    li   a0, 0
    li   a7, 93
    ecall

# Prints the unsigned number a0, and the character a1 behind it.
print_int:
    addi sp, sp, -16
    addi t0, sp, 15
    sb   a1, 0(t0)
    li   t1, 10
1:  remu t2, a0, t1
    addi t2, t2, '0'
    addi t0, t0, -1
    sb   t2, 0(t0)
    divu a0, a0, t1
    bnez a0, 1b
    addi a2, sp, 16
    sub  a2, a2, t0
    mv   a1, t0
    li   a0, 1
    li   a7, 64
    ecall
    addi sp, sp, 16
    ret
