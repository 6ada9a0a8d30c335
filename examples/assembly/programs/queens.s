# In how many ways n queens stand on a board of n by n such that none attacks another.
    .section .rodata
is:          .string " queens: "
end_of_line: .string "\n"

    .text
    .globl _start
_start:
    li   s0, 1
1:  mv   a0, s0
    call print_int
    la   a0, is
    call print_string
    li   t0, 1
    sll  a3, t0, s0
    addi a3, a3, -1             # a bit for each column
    li   a0, 0
    li   a1, 0
    li   a2, 0
    call place
    call print_int
    la   a0, end_of_line
    call print_string
    addi s0, s0, 1
    li   t0, 8
    ble  s0, t0, 1b
    li   a0, 0
    li   a7, 93
    ecall

# place(columns, diagonals to the left, to the right, all): the number of ways
place:
    bne  a0, a3, 1f
    li   a0, 1
    ret
1:  addi sp, sp, -32
    sw   ra, 28(sp)
    sw   s0, 24(sp)
    sw   s1, 20(sp)
    sw   a0, 0(sp)
    sw   a1, 4(sp)
    sw   a2, 8(sp)
    or   s0, a0, a1
    or   s0, s0, a2
    not  s0, s0
    and  s0, s0, a3             # the columns that are free
    li   s1, 0
2:  beqz s0, 3f
    neg  t0, s0
    and  t0, t0, s0
    xor  s0, s0, t0
    lw   a0, 0(sp)
    lw   a1, 4(sp)
    lw   a2, 8(sp)
    or   a0, a0, t0
    or   a1, a1, t0
    slli a1, a1, 1
    or   a2, a2, t0
    srli a2, a2, 1
    call place
    add  s1, s1, a0
    j    2b
3:  mv   a0, s1
    lw   s1, 20(sp)
    lw   s0, 24(sp)
    lw   ra, 28(sp)
    addi sp, sp, 32
    ret

# Prints the unsigned number a0 in decimal digits.
print_int:
    addi sp, sp, -16
    addi a1, sp, 16             # the digits are made from the end
    li   t1, 10
1:  remu t2, a0, t1
    addi t2, t2, '0'
    addi a1, a1, -1
    sb   t2, 0(a1)
    divu a0, a0, t1
    bnez a0, 1b
    addi a2, sp, 16
    sub  a2, a2, a1
    li   a0, 1
    li   a7, 64
    ecall
    addi sp, sp, 16
    ret

# Prints the string at a0, which ends with a zero.
print_string:
    mv   a1, a0
    li   a2, 0
1:  add  t0, a1, a2
    lbu  t0, 0(t0)
    beqz t0, 2f
    addi a2, a2, 1
    j    1b
2:  li   a0, 1
    li   a7, 64
    ecall
    ret
