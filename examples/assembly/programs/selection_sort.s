# Selection sort of halfwords: the smallest of the rest is put next.
.data
.align 1
numbers: .half 512, 3, 77, 65535, 1024, 9, 3, 40000
numbers_end:

.text
.globl _start
_start:
    la   s0, numbers
    la   s1, numbers_end
    mv   t0, s0
outer:
    addi t1, t0, 2
    bgeu t1, s1, sorted
    mv   t2, t0              # where the smallest is
inner:
    lhu  t3, 0(t1)
    lhu  t4, 0(t2)
    bgeu t3, t4, larger
    mv   t2, t1
larger:
    addi t1, t1, 2
    bltu t1, s1, inner
    lhu  t3, 0(t0)
    lhu  t4, 0(t2)
    sh   t4, 0(t0)
    sh   t3, 0(t2)
    addi t0, t0, 2
    j    outer
sorted:
    lhu  a0, 0(s0)
    call print_int
    li   a0, '\n'
    call putchar
    addi s0, s0, 2
    bne  s0, s1, sorted
    li   a0, 0
    li   a7, 93
    ecall

# Prints the unsigned number a0 in decimal digits.
print_int:
    addi sp, sp, -16
    addi a1, sp, 16             # the digits are made from the end
    li   t1, 10
1:  remu t2, a0, t1
    addi t2, t2, '0'
    addi a1, a1, -1
    sb   t2, 0(a1)
    divu a0, a0, t1
    bnez a0, 1b
    addi a2, sp, 16
    sub  a2, a2, a1
    li   a0, 1
    li   a7, 64
    ecall
    addi sp, sp, 16
    ret

# Prints the character a0.
putchar:
    addi sp, sp, -16
    sb   a0, 15(sp)
    li   a0, 1
    addi a1, sp, 15
    li   a2, 1
    li   a7, 64
    ecall
    addi sp, sp, 16
    ret
