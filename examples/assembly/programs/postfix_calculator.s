# A calculator for postfix expressions: reads lines as `2 3 + 4 *`, and prints what each is.
    .bss
    .align 2
input:  .space 512

    .text
    .globl _start
_start:
    li   a0, 0
    la   a1, input
    li   a2, 511
    li   a7, 63
    ecall
    la   s0, input              # the byte behind what was read is 0
    mv   s1, sp                 # the empty stack
token:
    lbu  t0, 0(s0)
    beqz t0, quit
    addi s0, s0, 1
    li   t1, '\n'
    beq  t0, t1, show
    addi t2, t0, -'0'
    li   t3, 10
    bltu t2, t3, number
    li   t1, '+'
    beq  t0, t1, plus
    li   t1, '-'
    beq  t0, t1, minus
    li   t1, '*'
    beq  t0, t1, times
    li   t1, '/'
    beq  t0, t1, over
    j    token                  # a blank

number:
    lbu  t0, 0(s0)
    addi t0, t0, -'0'
    bgeu t0, t3, push
    mul  t2, t2, t3
    add  t2, t2, t0
    addi s0, s0, 1
    j    number
plus:
    jal  t5, pop_two
    add  t2, t2, t4
    j    push
minus:
    jal  t5, pop_two
    sub  t2, t2, t4
    j    push
times:
    jal  t5, pop_two
    mul  t2, t2, t4
    j    push
over:
    jal  t5, pop_two
    div  t2, t2, t4
push:
    addi sp, sp, -4
    sw   t2, 0(sp)
    j    token
pop_two:
    lw   t4, 0(sp)
    lw   t2, 4(sp)
    addi sp, sp, 8
    jr   t5
show:
    lw   a0, 0(sp)
    mv   sp, s1
    li   a1, '\n'
    call print_signed
    j    token
quit:
    li   a0, 0
    li   a7, 93
    ecall

# print_signed(a0 = number, a1 = the character behind it)
print_signed:
        addi    sp, sp, -16
        addi    t0, sp, 15
        sb      a1, 0(t0)
        li      t1, 10
        srai    t3, a0, 31              # -1 for a negative number
        xor     a0, a0, t3
        sub     a0, a0, t3              # its absolute value
ps_digit:
        remu    t2, a0, t1
        addi    t2, t2, '0'
        addi    t0, t0, -1
        sb      t2, 0(t0)
        divu    a0, a0, t1
        bne     a0, zero, ps_digit
        beq     t3, zero, ps_write
        addi    t0, t0, -1
        li      t2, '-'
        sb      t2, 0(t0)
ps_write:
        li      a0, 1
        mv      a1, t0
        addi    a2, sp, 16
        sub     a2, a2, t0
        li      a7, 64
        ecall
        addi    sp, sp, 16
        ret
