# Numbers with 16 bits behind the point: products, quotients, and a square root by Newton's method.
.equ ONE, 1 << 16

.text
.globl _start
_start:
    li   a0, 3 * ONE + ONE / 2      # 3.5 * 2.25
    li   a1, 2 * ONE + ONE / 4
    call multiply
    call print_fixed
    li   a0, 355 * ONE >> 4         # (355 / 16) / (113 / 16)
    li   a1, 113 * ONE >> 4
    call divide
    call print_fixed
    li   s0, ONE                    # the root of 2
    li   s1, 5
1:  li   a0, 2 * ONE
    mv   a1, s0
    call divide
    add  s0, s0, a0
    srli s0, s0, 1
    addi s1, s1, -1
    bnez s1, 1b
    mv   a0, s0
    call print_fixed
    li   a0, 0
    li   a7, 93
    ecall

multiply:
    mulhu t0, a0, a1
    mul  a0, a0, a1
    srli a0, a0, 16
    slli t0, t0, 16
    or   a0, a0, t0
    ret

divide:                             # a0 / a1, a bit at a time behind the point
    divu t0, a0, a1
    remu t1, a0, a1
    li   t2, 16
2:  slli t0, t0, 1
    slli t1, t1, 1
    bltu t1, a1, 3f
    sub  t1, t1, a1
    ori  t0, t0, 1
3:  addi t2, t2, -1
    bnez t2, 2b
    mv   a0, t0
    ret

print_fixed:                        # with four digits behind the point
    addi sp, sp, -16
    sw   ra, 12(sp)
    sw   s0, 8(sp)
    sw   s1, 4(sp)
    mv   s0, a0
    srli a0, a0, 16
    li   a1, '.'
    call print_int
    li   s1, 4
4:  slli s0, s0, 16
    srli s0, s0, 16
    li   t0, 10
    mul  s0, s0, t0
    srli a0, s0, 16
    call print_digit
    addi s1, s1, -1
    bnez s1, 4b
    li   a0, '\n' - '0'
    call print_digit
    lw   s1, 4(sp)
    lw   s0, 8(sp)
    lw   ra, 12(sp)
    addi sp, sp, 16
    ret

print_digit:
    addi a0, a0, '0'
# Prints the character a0.
putchar:
    addi sp, sp, -16
    sb   a0, 15(sp)
    li   a0, 1
    addi a1, sp, 15
    li   a2, 1
    li   a7, 64
    ecall
    addi sp, sp, 16
    ret

# Prints the unsigned number a0, and the character a1 behind it.
print_int:
    addi sp, sp, -16
    addi t0, sp, 15
    sb   a1, 0(t0)
    li   t1, 10
1:  remu t2, a0, t1
    addi t2, t2, '0'
    addi t0, t0, -1
    sb   t2, 0(t0)
    divu a0, a0, t1
    bnez a0, 1b
    addi a2, sp, 16
    sub  a2, a2, t0
    mv   a1, t0
    li   a0, 1
    li   a7, 64
    ecall
    addi sp, sp, 16
    ret
