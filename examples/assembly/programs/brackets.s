# Tells of each string whether its brackets match, by a stack of the opening ones.
    .section .rodata
    .p2align 2
tests:  .word test1, test2, test3, test4, test5, 0
test1:  .asciz "(a[b]{c})"
test2:  .asciz "(]"
test3:  .asciz "((("
test4:  .asciz "})"
test5:  .asciz ""
good:   .asciz "balanced\n"
bad:    .asciz "not balanced\n"

    .text
    .globl _start
_start:
    la   s0, tests
next_test:
    lw   a0, 0(s0)
    beqz a0, all_tested
    call balanced
    mv   t0, a0
    la   a0, good
    bnez t0, 1f
    la   a0, bad
1:  call print_string
    addi s0, s0, 4
    j    next_test
all_tested:
    li   a7, 93
    ecall

balanced:
    mv   t0, sp                 # the empty stack
scan:
    lbu  t1, 0(a0)
    addi a0, a0, 1
    beqz t1, at_end
    li   t2, '('
    li   t3, ')'
    beq  t1, t2, open
    beq  t1, t3, close
    li   t2, '['
    li   t3, ']'
    beq  t1, t2, open
    beq  t1, t3, close
    li   t2, '{'
    li   t3, '}'
    beq  t1, t2, open
    bne  t1, t3, scan
close:
    beq  sp, t0, wrong
    lw   t4, 0(sp)
    addi sp, sp, 4
    beq  t4, t1, scan
    j    wrong
open:
    addi sp, sp, -4
    sw   t3, 0(sp)              # the one that must close it
    j    scan
at_end:
    sub  t1, t0, sp
    seqz a0, t1
    mv   sp, t0
    ret
wrong:
    mv   sp, t0
    li   a0, 0
    ret

# Prints the string at a0, which ends with a zero.
print_string:
    mv   a1, a0
    li   a2, 0
1:  add  t0, a1, a2
    lbu  t0, 0(t0)
    beqz t0, 2f
    addi a2, a2, 1
    j    1b
2:  li   a0, 1
    li   a7, 64
    ecall
    ret
