# The towers of Hanoi: the moves of 3 discs, and the number of moves of 10.
    .data
message: .ascii "Move disc "
disc:    .ascii "? from "
from:    .ascii "? to "
to:      .ascii "?\n"
length = . - message
    .balign 4
silent:  .word 0
moves:   .word 0

    .text
    .globl _start
_start:
    li   a0, 3
    li   a1, 'A'
    li   a2, 'C'
    li   a3, 'B'
    call hanoi
    li   t0, 1
    sw   t0, silent, t1
    sw   zero, moves, t1
    li   a0, 10
    li   a1, 'A'
    li   a2, 'C'
    li   a3, 'B'
    call hanoi
    lw   a0, moves
    li   a1, '\n'
    call print_int
    li   a0, 0
    li   a7, 93
    ecall

# hanoi(discs, from, to, by)
hanoi:
    beqz a0, 2f
    addi sp, sp, -32
    sw   ra, 28(sp)
    sw   a0, 24(sp)
    sw   a1, 20(sp)
    sw   a2, 16(sp)
    sw   a3, 12(sp)
    addi a0, a0, -1
    mv   t0, a2
    mv   a2, a3
    mv   a3, t0
    call hanoi
    lw   t0, moves
    addi t0, t0, 1
    sw   t0, moves, t1
    lw   t0, silent
    bnez t0, 1f
    lw   t0, 24(sp)
    addi t0, t0, '0'
    sb   t0, disc, t1
    lw   t0, 20(sp)
    sb   t0, from, t1
    lw   t0, 16(sp)
    sb   t0, to, t1
    li   a0, 1
    la   a1, message
    li   a2, length
    li   a7, 64
    ecall
1:  lw   a0, 24(sp)
    addi a0, a0, -1
    lw   a1, 12(sp)
    lw   a2, 16(sp)
    lw   a3, 20(sp)
    call hanoi
    lw   ra, 28(sp)
    addi sp, sp, 32
2:  ret

# Prints the unsigned number a0, and the character a1 behind it.
print_int:
    addi sp, sp, -16
    addi t0, sp, 15
    sb   a1, 0(t0)
    li   t1, 10
1:  remu t2, a0, t1
    addi t2, t2, '0'
    addi t0, t0, -1
    sb   t2, 0(t0)
    divu a0, a0, t1
    bnez a0, 1b
    addi a2, sp, 16
    sub  a2, a2, t0
    mv   a1, t0
    li   a0, 1
    li   a7, 64
    ecall
    addi sp, sp, 16
    ret
