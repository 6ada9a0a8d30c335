# Whole square roots: bit by bit, from the highest one on.
.data
squares: .word 0, 1, 2, 99, 100, 65535, 1000000, 2147483647, 4294967295
.equ size, . - squares
.equ how_many, size / 4

.text
.globl _start
_start:
    la   s0, squares
    li   s1, how_many
next:
    lw   a0, 0(s0)
    call isqrt
    call print_decimal
    li   a0, '\n'
    call putchar
    addi s0, s0, 4
    addi s1, s1, -1
    bnez s1, next
    li   a0, 0
    li   a7, 93
    ecall

isqrt:
    mv   t0, a0
    li   a0, 0
    li   t1, 1 << 15
try:
    or   t2, a0, t1
    mul  t3, t2, t2
    bgtu t3, t0, too_large
    mv   a0, t2
too_large:
    srli t1, t1, 1
    bnez t1, try
    ret

# void print_decimal(unsigned n): first what is before the last digit, by a call of itself
print_decimal:
    addi    sp, sp, -16
    sw      ra, 12(sp)
    sw      s0, 8(sp)
    li      t0, 10
    remu    s0, a0, t0
    divu    a0, a0, t0
    beqz    a0, last_digit
    call    print_decimal
last_digit:
    addi    a0, s0, 48
    call    putchar
    lw      s0, 8(sp)
    lw      ra, 12(sp)
    addi    sp, sp, 16
    ret

# Prints the character a0.
putchar:
    addi sp, sp, -16
    sb   a0, 15(sp)
    li   a0, 1
    addi a1, sp, 15
    li   a2, 1
    li   a7, 64
    ecall
    addi sp, sp, 16
    ret
