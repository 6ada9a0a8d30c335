# Merge sort of bytes: merge_sort(a0 = first, a1 = end) with a buffer.
        .data
letters: .ascii "MERGESORTEXAMPLE"
end:    .byte '\n'
        .bss
buffer: .skip 16

        .text
        .globl _start
_start: la   a0, letters
        la   a1, end
        call merge_sort
        li   a0, 1
        la   a1, letters
        li   a2, 17
        li   a7, 64
        ecall
        li   a0, 0
        li   a7, 93
        ecall

merge_sort:
        sub  t0, a1, a0
        li   t1, 2
        bltu t0, t1, return
        addi sp, sp, -16
        sw   ra, 0(sp)
        sw   s0, 4(sp)
        sw   s1, 8(sp)
        sw   s2, 12(sp)
        mv   s0, a0
        mv   s2, a1
        srli t0, t0, 1
        add  s1, s0, t0         # the middle
        mv   a1, s1
        call merge_sort
        mv   a0, s1
        mv   a1, s2
        call merge_sort
        la   t2, buffer
        mv   t0, s0
        mv   t1, s1
merge:  beq  t0, s1, right
        beq  t1, s2, left
        lbu  t3, (t0)
        lbu  t4, (t1)
        bltu t4, t3, right
left:   lbu  t3, (t0)
        addi t0, t0, 1
        j    put
right:  beq  t1, s2, merged
        lbu  t3, (t1)
        addi t1, t1, 1
put:    sb   t3, (t2)
        addi t2, t2, 1
        j    merge
merged: la   t2, buffer
copy:   lbu  t3, (t2)
        sb   t3, (s0)
        addi t2, t2, 1
        addi s0, s0, 1
        bne  s0, s2, copy
        lw   s2, 12(sp)
        lw   s1, 8(sp)
        lw   s0, 4(sp)
        lw   ra, 0(sp)
        addi sp, sp, 16
return: ret
