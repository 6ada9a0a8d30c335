# Looks for words in a sorted list of strings by binary search.
        .section .rodata
        .align  2
list:   .word   apple, banana, cherry, grape, lemon, orange, pear
        .set    LIST_SIZE, . - list
        .set    LENGTH, LIST_SIZE / 4
keys:   .word   cherry, kiwi, apple, pear, zebra, ap
        .set    KEYS_SIZE, . - keys
        .set    KEYS, KEYS_SIZE / 4
apple:  .asciz  "apple"
banana: .asciz  "banana"
cherry: .asciz  "cherry"
grape:  .asciz  "grape"
lemon:  .asciz  "lemon"
orange: .asciz  "orange"
pear:   .asciz  "pear"
kiwi:   .asciz  "kiwi"
zebra:  .asciz  "zebra"
ap:     .asciz  "ap"

        .text
        .globl  _start
_start:
        la      s0, keys
        li      s1, KEYS
1:      lw      a0, 0(s0)
        call    find
        li      a1, '\n'
        call    print_signed
        addi    s0, s0, 4
        addi    s1, s1, -1
        bnez    s1, 1b
        li      a0, 0
        li      a7, 93
        ecall

find:                           # the index of the string a0, or -1
        li      t0, 0
        li      t1, LENGTH
2:      bgeu    t0, t1, 6f
        add     t2, t0, t1
        srli    t2, t2, 1
        la      t3, list
        slli    t4, t2, 2
        add     t3, t3, t4
        lw      t3, 0(t3)
        mv      t4, a0
3:      lbu     t5, 0(t4)
        lbu     t6, 0(t3)
        bltu    t5, t6, 4f
        bgtu    t5, t6, 5f
        addi    t4, t4, 1
        addi    t3, t3, 1
        bnez    t5, 3b
        mv      a0, t2
        ret
4:      mv      t1, t2
        j       2b
5:      addi    t0, t2, 1
        j       2b
6:      li      a0, -1
        ret

# print_signed(a0 = number, a1 = the character behind it)
print_signed:
        addi    sp, sp, -16
        addi    t0, sp, 15
        sb      a1, 0(t0)
        li      t1, 10
        srai    t3, a0, 31              # -1 for a negative number
        xor     a0, a0, t3
        sub     a0, a0, t3              # its absolute value
ps_digit:
        remu    t2, a0, t1
        addi    t2, t2, '0'
        addi    t0, t0, -1
        sb      t2, 0(t0)
        divu    a0, a0, t1
        bne     a0, zero, ps_digit
        beq     t3, zero, ps_write
        addi    t0, t0, -1
        li      t2, '-'
        sb      t2, 0(t0)
ps_write:
        li      a0, 1
        mv      a1, t0
        addi    a2, sp, 16
        sub     a2, a2, t0
        li      a7, 64
        ecall
        addi    sp, sp, 16
        ret
