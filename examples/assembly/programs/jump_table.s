# A small machine with a stack. Its instructions are bytes, each done by a jump through a table.
    .equ PUSH, 0
    .equ ADD, 1
    .equ MULTIPLY, 2
    .equ DOUBLE, 3
    .equ PRINT, 4
    .equ HALT, 5

    .section .rodata
program:
    .byte PUSH, 6, PUSH, 7, MULTIPLY, DOUBLE, PRINT
    .byte PUSH, 100, ADD, PRINT, DOUBLE, MULTIPLY, PRINT, HALT, 9
    .balign 4
table:
    .word push, plus, multiply, double, print, halt
    .equ TABLE_SIZE, . - table
    .equ KINDS, TABLE_SIZE / 4

    .text
    .globl _start
_start:
    la   s0, program
    la   s1, table
execute:
    lbu  t0, 0(s0)
    addi s0, s0, 1
    li   t1, KINDS
    bgeu t0, t1, unknown
    slli t0, t0, 2
    add  t0, t0, s1
    lw   t0, 0(t0)
    jr   t0

push:
    lbu  t0, 0(s0)
    addi s0, s0, 1
    addi sp, sp, -4
    sw   t0, 0(sp)
    j    execute
plus:
    lw   t0, 0(sp)
    lw   t1, 4(sp)
    add  t0, t0, t1
    addi sp, sp, 4
    sw   t0, 0(sp)
    j    execute
multiply:
    lw   t0, 0(sp)
    lw   t1, 4(sp)
    mul  t0, t0, t1
    addi sp, sp, 4
    sw   t0, 0(sp)
    j    execute
double:
    lw   t0, 0(sp)
    addi sp, sp, -4
    sw   t0, 0(sp)
    j    execute
print:
    lw   a0, 0(sp)
    li   a1, '\n'
    call print_int
    j    execute
halt:
    lbu  a0, 0(s0)              # the status
    li   a7, 93
    ecall
unknown:
    ebreak

# Prints the unsigned number a0, and the character a1 behind it.
print_int:
    addi sp, sp, -16
    addi t0, sp, 15
    sb   a1, 0(t0)
    li   t1, 10
1:  remu t2, a0, t1
    addi t2, t2, '0'
    addi t0, t0, -1
    sb   t2, 0(t0)
    divu a0, a0, t1
    bnez a0, 1b
    addi a2, sp, 16
    sub  a2, a2, t0
    mv   a1, t0
    li   a0, 1
    li   a7, 64
    ecall
    addi sp, sp, 16
    ret
