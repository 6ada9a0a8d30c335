# The Mandelbrot set in characters, by numbers with 12 bits behind the point.
        .equ    SHIFT, 12
        .equ    ONE, 1 << SHIFT
        .equ    LEFT, -(2 * ONE + ONE / 4)
        .equ    TOP, -(ONE + ONE / 4)
        .equ    DX, ONE * 3 / 48
        .equ    DY, ONE / 8
        .equ    WIDTH, 52
        .equ    HEIGHT, 21
        .equ    ROUNDS, 20

        .section .rodata
shades: .ascii  " .,:;+=*%#@"
        .bss
line:   .space  WIDTH + 1

        .text
        .globl  _start
_start: li      s1, TOP
        li      s3, HEIGHT
row:    li      s0, LEFT
        li      s2, WIDTH
        la      s4, line
point:  li      t0, 0                   # x
        li      t1, 0                   # y
        li      t2, 0                   # rounds
round:  mul     t3, t0, t0
        srai    t3, t3, SHIFT           # x * x
        mul     t4, t1, t1
        srai    t4, t4, SHIFT           # y * y
        add     t5, t3, t4
        li      t6, 4 * ONE
        bgt     t5, t6, outside
        mul     t1, t0, t1
        srai    t1, t1, SHIFT - 1
        add     t1, t1, s1
        sub     t0, t3, t4
        add     t0, t0, s0
        addi    t2, t2, 1
        li      t6, ROUNDS
        blt     t2, t6, round
outside:
        srli    t2, t2, 1
        la      t3, shades
        add     t3, t3, t2
        lbu     t3, (t3)
        sb      t3, (s4)
        addi    s4, s4, 1
        addi    s0, s0, DX
        addi    s2, s2, -1
        bnez    s2, point
        li      t3, '\n'
        sb      t3, (s4)
        li      a0, 1
        la      a1, line
        li      a2, WIDTH + 1
        li      a7, 64
        ecall
        addi    s1, s1, DY
        addi    s3, s3, -1
        bnez    s3, row
        li      a0, 0
        li      a7, 93
        ecall
