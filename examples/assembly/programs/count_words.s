# Counts lines, words and characters of standard input, as wc does.
        .data
lines:  .word 0
words:  .word 0
chars:  .word 0
        .bss
byte:   .space 1

        .text
        .globl _start
_start:
        li   s0, 0                      # 1 inside of a word
read_byte:
        li   a0, 0
        la   a1, byte
        li   a2, 1
        li   a7, 63
        ecall
        beqz a0, report
        lw   t0, chars
        addi t0, t0, 1
        sw   t0, chars, t1
        lbu  t2, byte
        li   t3, '\n'
        bne  t2, t3, same_line
        lw   t0, lines
        addi t0, t0, 1
        sw   t0, lines, t1
same_line:
        sltiu t4, t2, ' ' + 1           # is it blank?
        bnez t4, blank
        bnez s0, read_byte
        li   s0, 1
        lw   t0, words
        addi t0, t0, 1
        sw   t0, words, t1
        j    read_byte
blank:  li   s0, 0
        j    read_byte
report:
        lw   a0, lines
        li   a1, ' '
        call print_int
        lw   a0, words
        li   a1, ' '
        call print_int
        lw   a0, chars
        li   a1, '\n'
        call print_int
        li   a0, 0
        li   a7, 93
        ecall

# Prints the unsigned number a0, and the character a1 behind it.
print_int:
    addi sp, sp, -16
    addi t0, sp, 15
    sb   a1, 0(t0)
    li   t1, 10
1:  remu t2, a0, t1
    addi t2, t2, '0'
    addi t0, t0, -1
    sb   t2, 0(t0)
    divu a0, a0, t1
    bnez a0, 1b
    addi a2, sp, 16
    sub  a2, a2, t0
    mv   a1, t0
    li   a0, 1
    li   a7, 64
    ecall
    addi sp, sp, 16
    ret
