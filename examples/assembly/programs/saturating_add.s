# Adds signed words, and stays at the largest or smallest one where the sum does not fit.
.set LARGEST, 0x7fffffff
.set SMALLEST, -0x80000000

.data
pairs:
    .word 1, 2
    .word LARGEST, 1
    .word SMALLEST, -1
    .word LARGEST, SMALLEST
    .word -2000000000, -200000000
    .word 2000000000, 147483647
pairs_end:
newline: .string "\n"

.text
.globl _start
_start:
    la   s0, pairs
    li   s1, 0                  # how many did not fit
1:  lw   a0, 0(s0)
    lw   a1, 4(s0)
    jal  saturating_add
    add  s1, s1, a1
    jal  print_number
    li   a0, 1
    la   a1, newline
    li   a2, 1
    li   a7, 64
    ecall
    addi s0, s0, 8
    la   t0, pairs_end
    bltu s0, t0, 1b
    mv   a0, s1
    li   a7, 93
    ecall

saturating_add:
    add  t0, a0, a1
    xor  t1, t0, a0             # both signs differ from that of the sum
    xor  t2, t0, a1
    and  t1, t1, t2
    bltz t1, 2f
    mv   a0, t0
    li   a1, 0
    ret
2:  srai t0, t0, 31
    li   a0, SMALLEST
    xor  a0, a0, t0
    li   a1, 1
    ret

# print_number(a0): a signed number
print_number:
    la   t0, digits_end
    li   t1, 10
    mv   t2, a0
    bgez a0, 1f
    neg  t2, a0
1:  remu t3, t2, t1
    addi t3, t3, '0'
    addi t0, t0, -1
    sb   t3, (t0)
    divu t2, t2, t1
    bnez t2, 1b
    bgez a0, 2f
    li   t3, '-'
    addi t0, t0, -1
    sb   t3, (t0)
2:  li   a0, 1
    mv   a1, t0
    la   a2, digits_end
    sub  a2, a2, t0
    li   a7, 64
    ecall
    ret

    .bss
digits:
    .space 12
digits_end:
