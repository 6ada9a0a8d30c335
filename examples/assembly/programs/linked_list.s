# Builds a linked list of the numbers 1 to 10, prints it, reverses it in place and prints it again.
# A node has a value and the address of the next node, which is 0 in the last.
.equ VALUE, 0
.equ NEXT, 4
.equ NODE_SIZE, 8

    .data
newline: .asciz "\n"
    .bss
    .align 2
nodes:  .space 10 * NODE_SIZE

    .text
    .globl _start
_start:
    la   s0, nodes
    li   s1, 0                  # the head
    li   s2, 10
build:
    sw   s2, VALUE(s0)
    sw   s1, NEXT(s0)
    mv   s1, s0
    addi s0, s0, NODE_SIZE
    addi s2, s2, -1
    bnez s2, build

    mv   a0, s1
    call print_list
    mv   a0, s1
    call reverse
    call print_list
    li   a0, 0
    li   a7, 93
    ecall

reverse:
    li   t0, 0
1:  beqz a0, 2f
    lw   t1, NEXT(a0)
    sw   t0, NEXT(a0)
    mv   t0, a0
    mv   a0, t1
    j    1b
2:  mv   a0, t0
    ret

print_list:
    addi sp, sp, -16
    sw   ra, 12(sp)
    sw   s0, 8(sp)
    mv   s0, a0
1:  lw   a0, VALUE(s0)
    li   a1, ' '
    call print_int
    lw   s0, NEXT(s0)
    bnez s0, 1b
    li   a0, 1
    la   a1, newline
    li   a2, 1
    li   a7, 64
    ecall
    lw   s0, 8(sp)
    lw   ra, 12(sp)
    addi sp, sp, 16
    ret

# Prints the unsigned number a0, and the character a1 behind it.
print_int:
    addi sp, sp, -16
    addi t0, sp, 15
    sb   a1, 0(t0)
    li   t1, 10
1:  remu t2, a0, t1
    addi t2, t2, '0'
    addi t0, t0, -1
    sb   t2, 0(t0)
    divu a0, a0, t1
    bnez a0, 1b
    addi a2, sp, 16
    sub  a2, a2, t0
    mv   a1, t0
    li   a0, 1
    li   a7, 64
    ecall
    addi sp, sp, 16
    ret
