# Conway's game of life on a ring of rows and columns: a glider, at the start and 4 steps later.
.equ SIDE, 8
.equ CELLS, SIDE * SIDE

    .data
    .balign 4
board:
    .ascii ".#......"
    .ascii "..#....."
    .ascii "###....."
    .ascii "........"
    .ascii "........"
    .ascii "........"
    .ascii "........"
    .ascii "........"
    .bss
    .balign 4
next:   .space CELLS

    .text
    .globl _start
_start:
    call show
    li   s11, 4
1:  call generation
    addi s11, s11, -1
    bnez s11, 1b
    call show
    li   a0, 0
    li   a7, 93
    ecall

generation:
    li   t0, 0                  # the cell
cell:
    la   t6, board
    li   t1, 0                  # neighbours
    li   t2, -1
down:
    li   t3, -1
across:
    or   t4, t2, t3
    beqz t4, itself
    srli t4, t0, 3
    add  t4, t4, t2
    andi t4, t4, SIDE - 1
    slli t4, t4, 3
    add  t5, t0, t3
    andi t5, t5, SIDE - 1
    or   t4, t4, t5
    add  t4, t4, t6
    lbu  t4, 0(t4)
    addi t4, t4, -'#'
    seqz t4, t4
    add  t1, t1, t4
itself:
    addi t3, t3, 1
    li   t4, 2
    bne  t3, t4, across
    addi t2, t2, 1
    bne  t2, t4, down
    add  t6, t6, t0
    lbu  t5, 0(t6)              # with two neighbours it stays
    beq  t1, t4, put
    li   t5, '.'
    li   t4, 3
    bne  t1, t4, put
    li   t5, '#'
put:
    la   t6, next
    add  t6, t6, t0
    sb   t5, 0(t6)
    addi t0, t0, 1
    li   t4, CELLS
    bne  t0, t4, cell
    la   t0, next
    la   t1, board
    addi t2, t0, CELLS
copy:
    lw   t3, 0(t0)
    sw   t3, 0(t1)
    addi t0, t0, 4
    addi t1, t1, 4
    bne  t0, t2, copy
    ret

show:
    la   s0, board
    addi s1, s0, CELLS
2:  li   a0, 1
    mv   a1, s0
    li   a2, SIDE
    li   a7, 64
    ecall
    li   a0, 1
    la   a1, line_feed
    li   a2, 1
    ecall
    addi s0, s0, SIDE
    bne  s0, s1, 2b
    ret

    .section .rodata
line_feed: .byte '\n'
