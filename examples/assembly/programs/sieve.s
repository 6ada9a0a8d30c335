# The sieve of Eratosthenes: the primes below 200, and as the status how many they are.
    .set N, 200

    .comm composite, N, 4

    .text
    .globl _start
_start:
    la   s0, composite
    li   s1, 2
    li   s2, N
    li   s3, 0
next:
    add  t0, s0, s1
    lbu  t1, 0(t0)
    bnez t1, no_prime
    addi s3, s3, 1
    slli t2, s1, 1              # strike out its multiples
    li   t3, 1
strike:
    bge  t2, s2, struck
    add  t0, s0, t2
    sb   t3, 0(t0)
    add  t2, t2, s1
    j    strike
struck:
    mv   a0, s1
    li   a1, ' '
    call print_int
no_prime:
    addi s1, s1, 1
    blt  s1, s2, next
    li   a0, 1
    la   a1, newline
    li   a2, 1
    li   a7, 64
    ecall
    mv   a0, s3
    li   a7, 93
    ecall

    .section .rodata
newline: .ascii "\n"

    .text
# Prints the unsigned number a0, and the character a1 behind it.
print_int:
    addi sp, sp, -16
    addi t0, sp, 15
    sb   a1, 0(t0)
    li   t1, 10
1:  remu t2, a0, t1
    addi t2, t2, '0'
    addi t0, t0, -1
    sb   t2, 0(t0)
    divu a0, a0, t1
    bnez a0, 1b
    addi a2, sp, 16
    sub  a2, a2, t0
    mv   a1, t0
    li   a0, 1
    li   a7, 64
    ecall
    addi sp, sp, 16
    ret
