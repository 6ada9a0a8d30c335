# Copies standard input to standard output, with lower-case letters in upper case.
.equ SIZE, 16           # small, so that it reads several times
.comm buffer, 16, 4

.text
.globl _start
_start:
read_more:
    li   a0, 0
    la   a1, buffer
    li   a2, SIZE
    li   a7, 63
    ecall
    blez a0, end_of_input
    mv   s0, a0
    la   t0, buffer
    add  t1, t0, a0
convert:
    lbu  t2, 0(t0)
    li   t3, 'a'
    bltu t2, t3, keep
    li   t3, 'z'
    bgtu t2, t3, keep
    addi t2, t2, 'A' - 'a'
    sb   t2, 0(t0)
keep:
    addi t0, t0, 1
    bne  t0, t1, convert
    li   a0, 1
    la   a1, buffer
    mv   a2, s0
    li   a7, 64
    ecall
    j    read_more
end_of_input:
    li   a7, 93         # a0 is 0
    ecall
