# Zeros in front of the first bit that is set, and behind the last one.
    .data
numbers:
    .word 0, 1, 0x00010000, 0x80000000, 0x7fffffff, 100
numbers_end:
    .text
    .globl _start
_start:
    la   s0, numbers
1:  lw   a0, (s0)
    call leading
    call print_decimal
    li   a0, '\t'
    call putchar
    lw   a0, (s0)
    call trailing
    call print_decimal
    li   a0, '\n'
    call putchar
    addi s0, s0, 4
    la   t0, numbers_end
    bne  s0, t0, 1b
    li   a0, 0
    li   a7, 93
    ecall

leading:
    li   t0, 32
    beqz a0, 3f
    li   t0, 0
2:  bltz a0, 3f
    slli a0, a0, 1
    addi t0, t0, 1
    j    2b
3:  mv   a0, t0
    ret

trailing:                       # those in front of the lowest bit alone
    mv   t0, a0
    li   a0, 32
    beqz t0, 4f
    addi sp, sp, -16
    sw   ra, 0(sp)
    neg  t1, t0
    and  a0, t0, t1
    call leading
    li   t0, 31
    sub  a0, t0, a0
    lw   ra, 0(sp)
    addi sp, sp, 16
4:  ret

# void print_decimal(unsigned n): first what is before the last digit, by a call of itself
print_decimal:
    addi    sp, sp, -16
    sw      ra, 12(sp)
    sw      s0, 8(sp)
    li      t0, 10
    remu    s0, a0, t0
    divu    a0, a0, t0
    beqz    a0, last_digit
    call    print_decimal
last_digit:
    addi    a0, s0, 48
    call    putchar
    lw      s0, 8(sp)
    lw      ra, 12(sp)
    addi    sp, sp, 16
    ret

# Prints the character a0.
putchar:
    addi sp, sp, -16
    sb   a0, 15(sp)
    li   a0, 1
    addi a1, sp, 15
    li   a2, 1
    li   a7, 64
    ecall
    addi sp, sp, 16
    ret
