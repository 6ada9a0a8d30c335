# Encodes a text by the lengths of its runs, prints that, and decodes it again.
.section .rodata
text:   .asciz "aaabccddddddddde"
end_of_line: .ascii "\n"
.bss
coded:  .zero 64
again:  .zero 64

.text
.globl _start
_start:
    la   s0, text
    la   s1, coded
1:  lbu  t0, 0(s0)
    beqz t0, encoded
    li   t1, 0
2:  lbu  t2, 0(s0)
    bne  t2, t0, 3f
    addi s0, s0, 1
    addi t1, t1, 1
    j    2b
3:  addi t1, t1, '0'            # runs of up to 9
    sb   t1, 0(s1)
    sb   t0, 1(s1)
    addi s1, s1, 2
    j    1b
encoded:
    la   a1, coded
    sub  a2, s1, a1
    call write_line

    la   s0, coded
    la   s2, again
4:  bgeu s0, s1, decoded
    lbu  t1, 0(s0)
    lbu  t0, 1(s0)
    addi s0, s0, 2
    addi t1, t1, -'0'
5:  sb   t0, 0(s2)
    addi s2, s2, 1
    addi t1, t1, -1
    bnez t1, 5b
    j    4b
decoded:
    la   a1, again
    sub  a2, s2, a1
    call write_line
    li   a0, 0
    li   a7, 93
    ecall

write_line:                     # a2 bytes from a1 on
    li   a0, 1
    li   a7, 64
    ecall
    li   a0, 1
    la   a1, end_of_line
    li   a2, 1
    ecall
    ret
