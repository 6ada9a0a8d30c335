# Quicksort by recursion, over words that a generator makes.
.equ COUNT, 24

    .bss
    .align 2
values: .space 4 * COUNT
    .section .rodata
newline: .byte 10

    .text
    .globl _start
_start:
    la   s0, values
    addi s1, s0, 4 * COUNT
    li   t1, 12345
    li   t2, 1103515245
fill:
    mul  t1, t1, t2
    addi t1, t1, 1234
    srli t3, t1, 22
    sw   t3, 0(s0)
    addi s0, s0, 4
    bltu s0, s1, fill

    la   a0, values
    addi a1, s1, -4
    call quick_sort

    la   s0, values
1:  lw   a0, 0(s0)
    li   a1, ' '
    call print_int
    addi s0, s0, 4
    bltu s0, s1, 1b
    li   a0, 1
    la   a1, newline
    li   a2, 1
    li   a7, 64
    ecall
    li   a0, 0
    li   a7, 93
    ecall

# Sorts the words from a0 to a1, both with them.
quick_sort:
    bgeu a0, a1, 3f
    lw   t0, (a1)               # the pivot
    mv   t1, a0                 # where the next small one goes
    mv   t2, a0
1:  lw   t3, (t2)
    bge  t3, t0, 2f
    lw   t4, (t1)
    sw   t3, (t1)
    sw   t4, (t2)
    addi t1, t1, 4
2:  addi t2, t2, 4
    bltu t2, a1, 1b
    lw   t4, (t1)
    sw   t0, (t1)
    sw   t4, (a1)
    addi sp, sp, -16
    sw   ra, 12(sp)
    sw   t1, 8(sp)
    sw   a1, 4(sp)
    addi a1, t1, -4
    call quick_sort
    lw   a0, 8(sp)
    addi a0, a0, 4
    lw   a1, 4(sp)
    lw   ra, 12(sp)
    addi sp, sp, 16
    j    quick_sort
3:  ret

# Prints the unsigned number a0, and the character a1 behind it.
print_int:
    addi sp, sp, -16
    addi t0, sp, 15
    sb   a1, 0(t0)
    li   t1, 10
1:  remu t2, a0, t1
    addi t2, t2, '0'
    addi t0, t0, -1
    sb   t2, 0(t0)
    divu a0, a0, t1
    bnez a0, 1b
    addi a2, sp, 16
    sub  a2, a2, t0
    mv   a1, t0
    li   a0, 1
    li   a7, 64
    ecall
    addi sp, sp, 16
    ret
