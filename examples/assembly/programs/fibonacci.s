# Fibonacci numbers, by a function that calls itself twice. The status is fib(10).
.equ LAST, 20

.text
.globl _start
_start:
    li      s1, 0               # int n = 0;
loop:
    mv      a0, s1
    jal     ra, fib
    mv      s2, a0
    call    print_decimal
    li      a0, ' '
    call    putchar
    addi    s1, s1, 1
    li      t0, LAST
    ble     s1, t0, loop
    li      a0, 10              # '\n'
    call    putchar
    li      a0, 10
    jal     fib
    li      a7, 93
    ecall

# int fib(int n) { return n < 2 ? n : fib(n - 1) + fib(n - 2); }
fib:
    slti    t0, a0, 2
    bnez    t0, small
    addi    sp, sp, -16
    sw      ra, 12(sp)
    sw      s0, 8(sp)
    sw      a0, 4(sp)
    addi    a0, a0, -1
    call    fib
    mv      s0, a0
    lw      a0, 4(sp)
    addi    a0, a0, -2
    call    fib
    add     a0, a0, s0
    lw      s0, 8(sp)
    lw      ra, 12(sp)
    addi    sp, sp, 16
small:
    ret

# void print_decimal(unsigned n): first what is before the last digit, by a call of itself
print_decimal:
    addi    sp, sp, -16
    sw      ra, 12(sp)
    sw      s0, 8(sp)
    li      t0, 10
    remu    s0, a0, t0
    divu    a0, a0, t0
    beqz    a0, last_digit
    call    print_decimal
last_digit:
    addi    a0, s0, 48
    call    putchar
    lw      s0, 8(sp)
    lw      ra, 12(sp)
    addi    sp, sp, 16
    ret

# Prints the character a0.
putchar:
    addi sp, sp, -16
    sb   a0, 15(sp)
    li   a0, 1
    addi a1, sp, 15
    li   a2, 1
    li   a7, 64
    ecall
    addi sp, sp, 16
    ret
