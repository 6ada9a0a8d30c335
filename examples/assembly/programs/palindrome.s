# Reads lines, reverses each, and says whether it is the same. The status is how many were.
    .section .rodata
yes:    .ascii " yes\n"
no:     .ascii " no\n\0"

    .bss
input:  .space 256
turned: .space 256

    .text
    .globl _start
_start:
    li   a0, 0
    la   a1, input
    li   a2, 256
    li   a7, 63                 # read
    ecall
    la   s0, input              # the first byte of the line
    add  s1, s0, a0             # the end of the input
    li   s3, 0
line:
    bgeu s0, s1, finished
    mv   s2, s0
    li   t0, '\n'
1:  lbu  t1, 0(s2)              # find its end
    beq  t1, t0, 2f
    addi s2, s2, 1
    j    1b
2:  la   t2, turned
    mv   t3, s2
    mv   t4, s0
    li   t6, 1                  # the same so far
3:  beq  t3, s0, 4f
    addi t3, t3, -1
    lbu  t0, 0(t3)
    sb   t0, 0(t2)
    lbu  t1, 0(t4)
    addi t2, t2, 1
    addi t4, t4, 1
    beq  t0, t1, 3b
    li   t6, 0
    j    3b
4:  li   a0, 1
    la   a1, turned
    sub  a2, s2, s0
    li   a7, 64
    ecall
    la   a1, no
    li   a2, 4
    beqz t6, 5f
    la   a1, yes
    li   a2, 5
    addi s3, s3, 1
5:  li   a0, 1
    ecall
    addi s0, s2, 1
    j    line
finished:
    mv   a0, s3
    li   a7, 93
    ecall
