# A number is to be guessed, a guess on each line. The status is how many were needed, or 255.
.equ SECRET, 37

.section .rodata
low:    .asciz "too low\n"
high:   .asciz "too high\n"
right:  .asciz "right!\n"
over:   .asciz "you gave up\n"

.bss
input:  .space 128

.text
.globl _start
_start:
    li   a0, 0
    la   a1, input
    li   a2, 128
    li   a7, 63
    ecall
    la   s0, input
    add  s1, s0, a0
    li   s2, 0
guess:
    bgeu s0, s1, gave_up
    addi s2, s2, 1
    li   t0, 0
digits:
    lbu  t1, 0(s0)
    addi s0, s0, 1
    li   t2, '\n'
    beq  t1, t2, compare
    slli t2, t0, 3              # times 10
    slli t0, t0, 1
    add  t0, t0, t2
    addi t1, t1, -'0'
    add  t0, t0, t1
    j    digits
compare:
    li   t1, SECRET
    la   a0, low
    blt  t0, t1, answer
    la   a0, high
    bgt  t0, t1, answer
    la   a0, right
    call print_string
    mv   a0, s2
    j    exit
answer:
    call print_string
    j    guess
gave_up:
    la   a0, over
    call print_string
    li   a0, -1
exit:
    li   a7, 93
    ecall

# Prints the string at a0, which ends with a zero.
print_string:
    mv   a1, a0
    li   a2, 0
1:  add  t0, a1, a2
    lbu  t0, 0(t0)
    beqz t0, 2f
    addi a2, a2, 1
    j    1b
2:  li   a0, 1
    li   a7, 64
    ecall
    ret
