# How many steps each number up to 30 needs to come to 1, where an even one is halved and an odd one
# is multiplied by 3 and increased by 1. The status is the largest of these counts.
            .equ    LIMIT, 30
            .equ    SYS_EXIT, 93

            .text
            .globl  _start
_start:     li      x8, 1               # the number
            li      x9, 0               # the largest count
each:       mv      x10, x8
            jal     x1, collatz
            bge     x9, x10, not_more
            mv      x9, x10
not_more:   li      x11, '\n'
            jal     x1, print_int
            addi    x8, x8, 1
            li      x5, LIMIT
            bge     x5, x8, each
            mv      x10, x9
            li      x17, SYS_EXIT
            ecall

collatz:    li      x5, 0
            li      x6, 1
step:       beq     x10, x6, done
            addi    x5, x5, 1
            andi    x7, x10, 1
            bne     x7, x0, odd
            srli    x10, x10, 1
            jal     x0, step
odd:        slli    x7, x10, 1
            add     x10, x10, x7
            addi    x10, x10, 1
            jal     x0, step
done:       addi    x10, x5, 0
            jalr    x0, 0(x1)

# Prints the unsigned number a0, and the character a1 behind it.
print_int:
    addi sp, sp, -16
    addi t0, sp, 15
    sb   a1, 0(t0)
    li   t1, 10
1:  remu t2, a0, t1
    addi t2, t2, '0'
    addi t0, t0, -1
    sb   t2, 0(t0)
    divu a0, a0, t1
    bnez a0, 1b
    addi a2, sp, 16
    sub  a2, a2, t0
    mv   a1, t0
    li   a0, 1
    li   a7, 64
    ecall
    addi sp, sp, 16
    ret
