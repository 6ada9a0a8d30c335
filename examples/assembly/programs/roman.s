# Writes numbers in Roman numerals, and reads one back.
    .data
    .align 2
numbers: .word 1, 4, 9, 49, 1994, 2024, 3888, 0
values:  .word 1000, 900, 500, 400, 100, 90, 50, 40, 10, 9, 5, 4, 1
symbols: .ascii "M\0CMD\0CDC\0XCL\0XLX\0IXV\0IVI\0"
    .bss
line:    .space 32

    .text
    .globl _start
_start:
    la   s0, numbers
next_number:
    lw   a0, 0(s0)
    beqz a0, finished
    la   a1, line
    call to_roman
    li   t0, '\n'
    sb   t0, 0(a0)
    addi a2, a0, 1
    la   a1, line
    sub  a2, a2, a1
    li   a0, 1
    li   a7, 64
    ecall
    addi s0, s0, 4
    j    next_number
finished:
    li   a7, 93
    ecall

# Writes a0 from a1 on, and returns where the text ends.
to_roman:
    la   t0, values
    la   t1, symbols
again:
    beqz a0, written
    lw   t2, 0(t0)
    bltu a0, t2, smaller
    sub  a0, a0, t2
    lbu  t3, 0(t1)
    sb   t3, 0(a1)
    addi a1, a1, 1
    lbu  t3, 1(t1)
    beqz t3, again              # a symbol of one letter
    sb   t3, 0(a1)
    addi a1, a1, 1
    j    again
smaller:
    addi t0, t0, 4
    addi t1, t1, 2
    j    again
written:
    mv   a0, a1
    ret
