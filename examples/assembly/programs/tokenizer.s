# Cuts a text into names, numbers and other characters, and prints each on a line behind its kind.
    .section .rodata
text:   .asciz "count = count_2 + 17*(x9 - 0x1f); // end"

    .text
    .globl _start
_start:
    la   s0, text
    li   s2, 0                  # how many
next_token:
    lbu  a0, 0(s0)
    beqz a0, finished
    addi s0, s0, 1
    li   t0, ' '
    beq  a0, t0, next_token
    addi s1, s0, -1             # where the token begins
    call is_digit
    li   s3, '9'
    bnez a0, rest
    lbu  a0, 0(s1)
    call is_letter
    li   s3, '?'
    beqz a0, show
    li   s3, 'a'
rest:                           # letters and digits belong to it
    lbu  a0, 0(s0)
    call is_digit
    bnez a0, 1f
    lbu  a0, 0(s0)
    call is_letter
    beqz a0, show
1:  addi s0, s0, 1
    j    rest
show:
    addi s2, s2, 1
    mv   a0, s3
    call putchar
    li   a0, ' '
    call putchar
    li   a0, 1
    mv   a1, s1
    sub  a2, s0, s1
    li   a7, 64
    ecall
    li   a0, '\n'
    call putchar
    j    next_token
finished:
    mv   a0, s2
    li   a7, 93
    ecall

is_digit:
    addi a0, a0, -'0'
    sltiu a0, a0, 10
    ret

is_letter:                      # or an underscore
    addi t0, a0, -'_'
    beqz t0, 2f
    ori  a0, a0, 'a' - 'A'
    addi a0, a0, -'a'
    sltiu a0, a0, 26
    ret
2:  li   a0, 1
    ret

# Prints the character a0.
putchar:
    addi sp, sp, -16
    sb   a0, 15(sp)
    li   a0, 1
    addi a1, sp, 15
    li   a2, 1
    li   a7, 64
    ecall
    addi sp, sp, 16
    ret
