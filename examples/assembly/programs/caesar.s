# Encrypts a text by Caesar's cipher and decrypts it again.
        .equ    STDOUT, 1
        .equ    SYS_WRITE, 64
        .data
text:   .asciz  "Veni, vidi, vici. XYZ xyz 49\n"

        .text
        .globl  _start
_start:
        la      a0, text
        li      a1, 3
        call    shift
        la      a0, text
        call    puts
        la      a0, text
        li      a1, 26 - 3
        call    shift
        la      a0, text
        call    puts
        li      a0, 0
        li      a7, 93
        ecall

# shift(text, by): turns each letter
shift:
        lbu     t0, 0(a0)
        beqz    t0, 9f
        ori     t1, t0, 0x20            # as a small letter
        addi    t1, t1, -'a'
        li      t2, 26
        bgeu    t1, t2, 1f
        andi    t3, t0, 0x20
        add     t1, t1, a1
        remu    t1, t1, t2
        addi    t1, t1, 'A'
        or      t1, t1, t3
        sb      t1, 0(a0)
1:      addi    a0, a0, 1
        j       shift
9:      ret

puts:                           # a0 = address of a zero-terminated string
        mv      a1, a0
puts_next:
        lbu     t0, 0(a0)
        addi    a0, a0, 1
        bne     t0, zero, puts_next
        sub     a2, a0, a1
        addi    a2, a2, -1
        li      a0, STDOUT
        li      a7, SYS_WRITE
        ecall
        jr      ra
