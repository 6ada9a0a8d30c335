# Reads commands, one on a line, and calls the function of each by a table of names and addresses.
    .data
    .align 2
table:
    .word show_name, show
    .word up_name, up
    .word down_name, down
    .word double_name, double
    .word quit_name, quit
    .word 0
counter:     .word 1
show_name:   .asciz "show"
up_name:     .asciz "up"
down_name:   .asciz "down"
double_name: .asciz "double"
quit_name:   .asciz "quit"
unknown:     .asciz "unknown command\n"
    .bss
input:       .space 256

    .text
    .globl _start
_start:
    li   a0, 0
    la   a1, input
    li   a2, 255
    li   a7, 63
    ecall
    la   s0, input
line:
    lbu  t0, 0(s0)
    beqz t0, quit
    la   s1, table
entry:
    lw   t0, 0(s1)
    beqz t0, none
    mv   t1, s0
compare:
    lbu  t2, 0(t0)
    lbu  t3, 0(t1)
    beqz t2, name_ends
    addi t0, t0, 1
    addi t1, t1, 1
    beq  t2, t3, compare
other:
    addi s1, s1, 8
    j    entry
name_ends:
    li   t2, '\n'
    bne  t2, t3, other
    lw   t0, 4(s1)
    jalr t0
    j    skip
none:
    la   a0, unknown
    call print_string
skip:                           # to the next line
    lbu  t0, 0(s0)
    addi s0, s0, 1
    li   t1, '\n'
    bne  t0, t1, skip
    j    line

up:
    lw   t0, counter
    addi t0, t0, 1
    j    store
down:
    lw   t0, counter
    addi t0, t0, -1
    j    store
double:
    lw   t0, counter
    slli t0, t0, 1
store:
    sw   t0, counter, t1
    ret
show:
    lw   a0, counter
    li   a1, '\n'
    tail print_signed
quit:
    li   a0, 0
    li   a7, 93
    ecall

# Prints the string at a0, which ends with a zero.
print_string:
    mv   a1, a0
    li   a2, 0
1:  add  t0, a1, a2
    lbu  t0, 0(t0)
    beqz t0, 2f
    addi a2, a2, 1
    j    1b
2:  li   a0, 1
    li   a7, 64
    ecall
    ret

# print_signed(a0 = number, a1 = the character behind it)
print_signed:
        addi    sp, sp, -16
        addi    t0, sp, 15
        sb      a1, 0(t0)
        li      t1, 10
        srai    t3, a0, 31              # -1 for a negative number
        xor     a0, a0, t3
        sub     a0, a0, t3              # its absolute value
ps_digit:
        remu    t2, a0, t1
        addi    t2, t2, '0'
        addi    t0, t0, -1
        sb      t2, 0(t0)
        divu    a0, a0, t1
        bne     a0, zero, ps_digit
        beq     t3, zero, ps_write
        addi    t0, t0, -1
        li      t2, '-'
        sb      t2, 0(t0)
ps_write:
        li      a0, 1
        mv      a1, t0
        addi    a2, sp, 16
        sub     a2, a2, t0
        li      a7, 64
        ecall
        addi    sp, sp, 16
        ret
