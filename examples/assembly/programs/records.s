# An array of records: 12 bytes of name, a word for the age and a halfword for the points.
    .equ NAME, 0
    .equ AGE, 12
    .equ POINTS, 16
    .equ RECORD, 20

    .data
    .align 2
people:
    .ascii "Ada\n\0\0\0\0\0\0\0\0"
    .word 36
    .half 95, 0
    .ascii "Grace\n\0\0\0\0\0\0"
    .word 85
    .half 88, 0
    .ascii "Alan\n\0\0\0\0\0\0\0"
    .word 41
    .half 91, 0
people_end:

    .text
    .globl _start
_start:
    la   s0, people
    la   s1, people_end
    mv   s2, s0                 # the oldest
    li   s3, 0                  # the sum of all points
    li   s4, 0                  # how many
1:  lw   t0, AGE(s0)
    lw   t1, AGE(s2)
    ble  t0, t1, 2f
    mv   s2, s0
2:  lhu  t0, POINTS(s0)
    add  s3, s3, t0
    addi s4, s4, 1
    addi s0, s0, RECORD
    bltu s0, s1, 1b

    addi a0, s2, NAME
    call print_string
    lw   a0, AGE(s2)
    li   a1, '\n'
    call print_int
    divu a0, s3, s4             # the average
    li   a1, '\n'
    call print_int
    lhu  t0, people + POINTS    # of the first
    addi t0, t0, 5
    sh   t0, people + POINTS, t1
    lhu  a0, people + POINTS
    li   a1, '\n'
    call print_int
    mv   a0, s4
    li   a7, 93
    ecall

# Prints the unsigned number a0, and the character a1 behind it.
print_int:
    addi sp, sp, -16
    addi t0, sp, 15
    sb   a1, 0(t0)
    li   t1, 10
1:  remu t2, a0, t1
    addi t2, t2, '0'
    addi t0, t0, -1
    sb   t2, 0(t0)
    divu a0, a0, t1
    bnez a0, 1b
    addi a2, sp, 16
    sub  a2, a2, t0
    mv   a1, t0
    li   a0, 1
    li   a7, 64
    ecall
    addi sp, sp, 16
    ret

# Prints the string at a0, which ends with a zero.
print_string:
    mv   a1, a0
    li   a2, 0
1:  add  t0, a1, a2
    lbu  t0, 0(t0)
    beqz t0, 2f
    addi a2, a2, 1
    j    1b
2:  li   a0, 1
    li   a7, 64
    ecall
    ret
