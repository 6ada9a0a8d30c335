# Bank accounts: deposits, withdrawals and transfers. What an account does not have is refused.
.equ ACCOUNTS, 3

    .data
    .align 2
balance:    .word 100, 50, 0
# from, to and the amount; account -1 is the cash desk
orders:     .word -1, 0, 250
            .word 0, 2, 300
            .word 1, -1, 60
            .word 2, 1, 45
            .word 1, -1, 95
            .word 0, 1, 51
orders_end:
refused:    .asciz "refused\n"
done:       .asciz "done\n"

    .text
    .globl _start
_start:
    la   s0, orders
    la   s1, orders_end
    li   s2, 0                  # how many were refused
next_order:
    lw   a0, 0(s0)
    lw   a1, 4(s0)
    lw   a2, 8(s0)
    call transfer
    beqz a0, accepted
    addi s2, s2, 1
    la   a0, refused
    call print_string
    j    1f
accepted:
    la   a0, done
    call print_string
1:  addi s0, s0, 12
    bne  s0, s1, next_order

    la   s0, balance
    li   s1, ACCOUNTS
2:  lw   a0, 0(s0)
    li   a1, '\n'
    call print_int
    addi s0, s0, 4
    addi s1, s1, -1
    bgtz s1, 2b
    mv   a0, s2
    li   a7, 93
    ecall

transfer:
    la   t0, balance
    bltz a0, 3f
    slli t1, a0, 2
    add  t1, t1, t0
    lw   t2, 0(t1)
    blt  t2, a2, 5f
    sub  t2, t2, a2
    sw   t2, 0(t1)
3:  bltz a1, 4f
    slli t1, a1, 2
    add  t1, t1, t0
    lw   t2, 0(t1)
    add  t2, t2, a2
    sw   t2, 0(t1)
4:  li   a0, 0
    ret
5:  li   a0, 1
    ret

# Prints the unsigned number a0, and the character a1 behind it.
print_int:
    addi sp, sp, -16
    addi t0, sp, 15
    sb   a1, 0(t0)
    li   t1, 10
1:  remu t2, a0, t1
    addi t2, t2, '0'
    addi t0, t0, -1
    sb   t2, 0(t0)
    divu a0, a0, t1
    bnez a0, 1b
    addi a2, sp, 16
    sub  a2, a2, t0
    mv   a1, t0
    li   a0, 1
    li   a7, 64
    ecall
    addi sp, sp, 16
    ret

# Prints the string at a0, which ends with a zero.
print_string:
    mv   a1, a0
    li   a2, 0
1:  add  t0, a1, a2
    lbu  t0, 0(t0)
    beqz t0, 2f
    addi a2, a2, 1
    j    1b
2:  li   a0, 1
    li   a7, 64
    ecall
    ret
