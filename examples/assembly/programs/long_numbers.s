# Numbers of 64 bits in pairs of registers: n! up to 20!, and a sum of two with its carry.
    .text
    .globl _start
_start:
    li   s0, 1                  # low word
    li   s1, 0                  # high word
    li   s2, 1
1:  mul  t0, s0, s2
    mulhu t1, s0, s2
    mul  t2, s1, s2
    mv   s0, t0
    add  s1, t1, t2
    addi s2, s2, 1
    li   t0, 20
    ble  s2, t0, 1b
    mv   a0, s0
    mv   a1, s1
    call print_long

    li   a0, 0xfffffff0         # the low words
    li   a2, 0x20
    li   a1, 1                  # the high words
    li   a3, 2
    add  a0, a0, a2
    sltu t0, a0, a2             # the carry
    add  a1, a1, a3
    add  a1, a1, t0
    call print_long

    li   t0, -3                 # -3 * 5, signed
    li   t1, 5
    mul  a0, t0, t1
    mulh a1, t0, t1
    call print_long
    li   a0, 0
    li   a7, 93
    ecall

print_long:                     # a1 and a0, 16 hexadecimal digits
    la   t0, line
    li   t1, 2
2:  li   t2, 28
3:  srl  t3, a1, t2
    andi t3, t3, 0xf
    la   t4, hex
    add  t3, t3, t4
    lbu  t3, 0(t3)
    sb   t3, 0(t0)
    addi t0, t0, 1
    addi t2, t2, -4
    bgez t2, 3b
    mv   a1, a0
    addi t1, t1, -1
    bnez t1, 2b
    li   a0, 1
    la   a1, line
    li   a2, 17
    li   a7, 64
    ecall
    ret

    .data
hex:    .ascii "0123456789ABCDEF"
line:   .ascii "................\n"
