# The CRC-32 of two strings, bit by bit: of "123456789" it is cbf43926.
        .equ    POLYNOMIAL, 0xedb88320
        .section .rodata
check:  .string "123456789"
pangram: .string "The quick brown fox jumps over the lazy dog"

        .text
        .globl  _start
_start: la      a0, check
        jal     crc
        jal     print_hex
        la      a0, pangram
        jal     crc
        jal     print_hex
        li      a0, 0
        li      a7, 93
        ecall

crc:    li      t0, -1
        li      t1, POLYNOMIAL
byte:   lbu     t2, 0(a0)
        beqz    t2, end
        addi    a0, a0, 1
        xor     t0, t0, t2
        li      t3, 8
bit:    andi    t4, t0, 1
        neg     t4, t4
        and     t4, t4, t1
        srli    t0, t0, 1
        xor     t0, t0, t4
        addi    t3, t3, -1
        bnez    t3, bit
        j       byte
end:    not     a0, t0
        ret

print_hex:
        addi    sp, sp, -16
        li      t0, 28
        mv      t1, sp
1:      srl     t2, a0, t0
        andi    t2, t2, 15
        sltiu   t3, t2, 10
        bnez    t3, 2f
        addi    t2, t2, 'a' - '9' - 1
2:      addi    t2, t2, '0'
        sb      t2, 0(t1)
        addi    t1, t1, 1
        addi    t0, t0, -4
        bgez    t0, 1b
        li      t2, '\n'
        sb      t2, 0(t1)
        li      a0, 1
        mv      a1, sp
        li      a2, 9
        li      a7, 64
        ecall
        addi    sp, sp, 16
        ret
