# How often each pair of letters is in a text, in a hash table of 16 places with open addressing.
    .section .rodata
text:   .string "bananas and bandanas"
    .bss
    .align 2
table:  .space 16 * 4           # halfwords: key, count

    .text
    .globl _start
_start:
    la   s0, text
1:  lbu  a0, 0(s0)
    lbu  t0, 1(s0)
    beqz t0, print_all
    slli t0, t0, 8
    or   a0, a0, t0
    call find
    lhu  t0, 2(a0)
    addi t0, t0, 1
    sh   t0, 2(a0)
    addi s0, s0, 1
    j    1b

# The address of the entry of the key a0, which is made where there is none.
find:
    li   t0, 40503
    mul  t0, a0, t0
    srli t0, t0, 8
    la   t2, table
2:  andi t0, t0, 15
    slli t1, t0, 2
    add  t1, t1, t2
    lhu  t3, 0(t1)
    beq  t3, a0, 3f
    addi t0, t0, 1
    bnez t3, 2b
    sh   a0, 0(t1)
3:  mv   a0, t1
    ret

print_all:
    la   s0, table
    li   s1, 16
4:  lhu  t0, 0(s0)
    beqz t0, 5f
    li   a0, 1
    mv   a1, s0
    li   a2, 2
    li   a7, 64
    ecall
    lhu  a0, 2(s0)
    li   a1, '\n'
    call print_int
5:  addi s0, s0, 4
    addi s1, s1, -1
    bnez s1, 4b
    li   a0, 0
    li   a7, 93
    ecall

# Prints the unsigned number a0, and the character a1 behind it.
print_int:
    addi sp, sp, -16
    addi t0, sp, 15
    sb   a1, 0(t0)
    li   t1, 10
1:  remu t2, a0, t1
    addi t2, t2, '0'
    addi t0, t0, -1
    sb   t2, 0(t0)
    divu a0, a0, t1
    bnez a0, 1b
    addi a2, sp, 16
    sub  a2, a2, t0
    mv   a1, t0
    li   a0, 1
    li   a7, 64
    ecall
    addi sp, sp, 16
    ret
