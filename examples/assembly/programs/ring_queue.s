# A queue in a ring of 8 bytes. Three letters at a time go in and two come out. Where it is full it
# refuses, and the status is how often that was.
.equ SIZE, 8
.equ MASK, SIZE - 1

    .bss
ring:   .space SIZE
head:   .space 1                # where the next one is taken
count:  .space 1

    .text
    .globl _start
_start:
    li   s0, 'a'
    li   s2, 0
round:
    li   s1, 3
1:  mv   a0, s0
    call enqueue
    add  s2, s2, a0
    addi s0, s0, 1
    addi s1, s1, -1
    bnez s1, 1b
    call print_next
    call print_next
    li   t0, 'z'
    ble  s0, t0, round
drain:
    lbu  t0, count
    beqz t0, empty
    call print_next
    j    drain
empty:
    li   a0, '\n'
    call putchar
    mv   a0, s2
    li   a7, 93
    ecall

enqueue:                        # a0 is 1 where there is no room, else 0
    lbu  t0, count
    li   t1, SIZE
    beq  t0, t1, full
    lbu  t2, head
    add  t2, t2, t0
    andi t2, t2, MASK
    la   t3, ring
    add  t3, t3, t2
    sb   a0, 0(t3)
    addi t0, t0, 1
    sb   t0, count, t1
    li   a0, 0
    ret
full:
    li   a0, 1
    ret

print_next:
    lbu  t0, head
    la   t1, ring
    add  t1, t1, t0
    lbu  a0, (t1)
    addi t0, t0, 1
    andi t0, t0, MASK
    sb   t0, head, t1
    lbu  t0, count
    addi t0, t0, -1
    sb   t0, count, t1
    tail putchar

# Prints the character a0.
putchar:
    addi sp, sp, -16
    sb   a0, 15(sp)
    li   a0, 1
    addi a1, sp, 15
    li   a2, 1
    li   a7, 64
    ecall
    addi sp, sp, 16
    ret
