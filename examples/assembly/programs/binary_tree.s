# Inserts numbers into a binary search tree, prints them in order, and ends with the tree's depth.
        .equ    KEY, 0
        .equ    LEFT, 4
        .equ    RIGHT, 8
        .data
keys:   .word   50, 30, 70, 20, 40, 60, 80, 10, 65, 5
        .equ    KEYS_SIZE, . - keys
        .equ    COUNT, KEYS_SIZE / 4
root:   .word   0
        .bss
        .align  2
nodes:  .space  12 * COUNT

        .text
        .globl  _start
_start: la      s0, keys
        la      s1, nodes
        li      s2, COUNT
1:      lw      t0, 0(s0)
        sw      t0, KEY(s1)
        la      t1, root
2:      lw      t2, 0(t1)               # down to a link that is empty
        beqz    t2, 4f
        lw      t3, KEY(t2)
        addi    t1, t2, LEFT
        blt     t0, t3, 2b
        addi    t1, t2, RIGHT
        j       2b
4:      sw      s1, 0(t1)
        addi    s0, s0, 4
        addi    s1, s1, 12
        addi    s2, s2, -1
        bnez    s2, 1b
        lw      a0, root
        call    walk
        li      a7, 93
        ecall

# Prints a subtree, and returns its depth.
walk:   beqz    a0, leaf
        addi    sp, sp, -16
        sw      ra, 0(sp)
        sw      s0, 4(sp)
        sw      s1, 8(sp)
        mv      s0, a0
        lw      a0, LEFT(s0)
        call    walk
        mv      s1, a0
        lw      a0, KEY(s0)
        li      a1, '\n'
        call    print_int
        lw      a0, RIGHT(s0)
        call    walk
        bge     a0, s1, 1f
        mv      a0, s1
1:      addi    a0, a0, 1
        lw      s1, 8(sp)
        lw      s0, 4(sp)
        lw      ra, 0(sp)
        addi    sp, sp, 16
leaf:   ret

# Prints the unsigned number a0, and the character a1 behind it.
print_int:
    addi sp, sp, -16
    addi t0, sp, 15
    sb   a1, 0(t0)
    li   t1, 10
1:  remu t2, a0, t1
    addi t2, t2, '0'
    addi t0, t0, -1
    sb   t2, 0(t0)
    divu a0, a0, t1
    bnez a0, 1b
    addi a2, sp, 16
    sub  a2, a2, t0
    mv   a1, t0
    li   a0, 1
    li   a7, 64
    ecall
    addi sp, sp, 16
    ret
