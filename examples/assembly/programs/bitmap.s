# Draws pictures of 8 by 8 bits with # and . for each bit.
    .section .rodata
letters:
    .byte 0b11111100            # R
    .byte 0b01100110
    .byte 0b01100110
    .byte 0b01111100
    .byte 0b01101100
    .byte 0b01100110
    .byte 0b11100110
    .byte 0
    .byte 0xc6, 0xc6, 0xc6, 0xc6, 0xc6, 0x6c, 0x38, 0   # V
letters_end:

    .bss
line: .space 9

    .text
    .globl _start
_start:
    la   s0, letters
    li   t0, '\n'
    sb   t0, line + 8, t1
    li   s2, 0                  # how many bits are set
row:
    lbu  t0, 0(s0)
    la   t1, line
    li   t2, 0x80
bit:
    and  t3, t0, t2
    snez t3, t3
    add  s2, s2, t3
    li   t4, '.'
    beqz t3, 1f
    li   t4, '#'
1:  sb   t4, 0(t1)
    addi t1, t1, 1
    srli t2, t2, 1
    bnez t2, bit
    li   a0, 1
    la   a1, line
    li   a2, 9
    li   a7, 64
    ecall
    addi s0, s0, 1
    la   t0, letters_end
    bne  s0, t0, row
    mv   a0, s2
    li   a7, 93
    ecall
