# Inserts numbers into a sorted linked list, with memory from a heap of its own.
        .data
input:  .word   50, 20, 70, 10, 60, 20, 90, 5
input_end:
head:   .word   0
heap_pointer:
        .word   heap
        .bss
        .balign 4
heap:   .skip   128

        .text
        .globl  _start
_start:
        la      s0, input
        la      s1, input_end
1:      lw      a0, 0(s0)
        jal     insert
        addi    s0, s0, 4
        bne     s0, s1, 1b

        lw      s0, head
2:      beqz    s0, 3f
        lw      a0, 0(s0)
        jal     print_decimal
        li      a0, '\n'
        jal     putchar
        lw      s0, 4(s0)
        j       2b
3:      li      a0, 0
        li      a7, 93
        ecall

# malloc(a0 bytes), a multiple of 4
malloc:
        lw      t0, heap_pointer
        add     t1, t0, a0
        sw      t1, heap_pointer, t2
        mv      a0, t0
        ret

insert:
        addi    sp, sp, -16
        sw      ra, 12(sp)
        sw      a0, 8(sp)
        li      a0, 8
        jal     malloc
        lw      t0, 8(sp)
        sw      t0, 0(a0)
        la      t1, head                # the address of the link to change
4:      lw      t2, 0(t1)
        beqz    t2, 5f
        lw      t3, 0(t2)
        bge     t3, t0, 5f
        addi    t1, t2, 4
        j       4b
5:      sw      t2, 4(a0)
        sw      a0, 0(t1)
        lw      ra, 12(sp)
        addi    sp, sp, 16
        ret

# void print_decimal(unsigned n): first what is before the last digit, by a call of itself
print_decimal:
    addi    sp, sp, -16
    sw      ra, 12(sp)
    sw      s0, 8(sp)
    li      t0, 10
    remu    s0, a0, t0
    divu    a0, a0, t0
    beqz    a0, last_digit
    call    print_decimal
last_digit:
    addi    a0, s0, 48
    call    putchar
    lw      s0, 8(sp)
    lw      ra, 12(sp)
    addi    sp, sp, 16
    ret

# Prints the character a0.
putchar:
    addi sp, sp, -16
    sb   a0, 15(sp)
    li   a0, 1
    addi a1, sp, 15
    li   a2, 1
    li   a7, 64
    ecall
    addi sp, sp, 16
    ret
