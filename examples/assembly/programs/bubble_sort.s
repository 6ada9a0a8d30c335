# Sorts an array of words in place by swaps of neighbours, until a pass has none.
    .data
    .align 2
array:
    .word 42, -7, 0, 19, 3, 3, -2147483648, 2147483647, 8, 1
    .set size, . - array
    .set length, size / 4

    .text
    .globl _start
_start:
    la   a0, array
    li   a1, length
    call bubble_sort
    la   s0, array
    li   s1, length
show:
    lw   a0, (s0)
    call print_number
    la   a1, comma
    li   a2, 1
    addi s0, s0, 4
    addi s1, s1, -1
    bnez s1, 1f
    la   a1, newline
1:  li   a0, 1
    li   a7, 64
    ecall
    bnez s1, show
    li   a0, 0
    li   a7, 93
    ecall

bubble_sort:
    addi a1, a1, -1
pass:
    mv   t0, a0
    mv   t1, a1
    li   t6, 0                  # was there a swap?
compare:
    lw   t2, 0(t0)
    lw   t3, 4(t0)
    ble  t2, t3, in_order
    sw   t3, 0(t0)
    sw   t2, 4(t0)
    li   t6, 1
in_order:
    addi t0, t0, 4
    addi t1, t1, -1
    bgtz t1, compare
    bnez t6, pass
    ret

    .section .rodata
comma:   .ascii ","
newline: .ascii "\n"
    .text
# print_number(a0): a signed number
print_number:
    la   t0, digits_end
    li   t1, 10
    mv   t2, a0
    bgez a0, 1f
    neg  t2, a0
1:  remu t3, t2, t1
    addi t3, t3, '0'
    addi t0, t0, -1
    sb   t3, (t0)
    divu t2, t2, t1
    bnez t2, 1b
    bgez a0, 2f
    li   t3, '-'
    addi t0, t0, -1
    sb   t3, (t0)
2:  li   a0, 1
    mv   a1, t0
    la   a2, digits_end
    sub  a2, a2, t0
    li   a7, 64
    ecall
    ret

    .bss
digits:
    .space 12
digits_end:
