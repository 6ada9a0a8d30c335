# A calculator for expressions with + - * / and parentheses, by recursive descent. It reads byte for
# byte, and the character that comes next is in s0.
        .bss
char:   .skip   1

        .text
        .globl  _start
_start: jal     advance
line:   beqz    s0, quit
        jal     expression
        li      a1, '\n'
        jal     print_signed
        jal     advance                 # over the line feed
        j       line
quit:   li      a0, 0
        li      a7, 93
        ecall

advance:                                # to the next that is no blank, or 0 at the end
        li      a0, 0
        la      a1, char
        li      a2, 1
        li      a7, 63
        ecall
        mv      s0, a0
        beqz    a0, 1f
        lbu     s0, char
        li      t0, ' '
        beq     s0, t0, advance
1:      ret

expression:                             # terms with + and - between
        addi    sp, sp, -16
        sw      ra, 12(sp)
        sw      s1, 8(sp)
        jal     term
1:      mv      s1, a0
        li      t0, '+'
        beq     s0, t0, 2f
        li      t0, '-'
        bne     s0, t0, done
        jal     advance
        jal     term
        sub     a0, s1, a0
        j       1b
2:      jal     advance
        jal     term
        add     a0, s1, a0
        j       1b
done:   mv      a0, s1
        lw      s1, 8(sp)
        lw      ra, 12(sp)
        addi    sp, sp, 16
        ret

term:                                   # factors with * and / between
        addi    sp, sp, -16
        sw      ra, 12(sp)
        sw      s1, 8(sp)
        jal     factor
1:      mv      s1, a0
        li      t0, '*'
        beq     s0, t0, 2f
        li      t0, '/'
        bne     s0, t0, done
        jal     advance
        jal     factor
        div     a0, s1, a0
        j       1b
2:      jal     advance
        jal     factor
        mul     a0, s1, a0
        j       1b

factor: addi    sp, sp, -16
        sw      ra, 12(sp)
        sw      s1, 8(sp)
        li      t0, '('
        beq     s0, t0, 2f
        li      s1, 0
1:      addi    t0, s0, -'0'
        sltiu   t1, t0, 10
        beqz    t1, done
        li      t1, 10
        mul     s1, s1, t1
        add     s1, s1, t0
        jal     advance
        j       1b
2:      jal     advance
        jal     expression
        mv      s1, a0
        jal     advance                 # over the )
        j       done

# print_signed(a0 = number, a1 = the character behind it)
print_signed:
        addi    sp, sp, -16
        addi    t0, sp, 15
        sb      a1, 0(t0)
        li      t1, 10
        srai    t3, a0, 31              # -1 for a negative number
        xor     a0, a0, t3
        sub     a0, a0, t3              # its absolute value
ps_digit:
        remu    t2, a0, t1
        addi    t2, t2, '0'
        addi    t0, t0, -1
        sb      t2, 0(t0)
        divu    a0, a0, t1
        bne     a0, zero, ps_digit
        beq     t3, zero, ps_write
        addi    t0, t0, -1
        li      t2, '-'
        sb      t2, 0(t0)
ps_write:
        li      a0, 1
        mv      a1, t0
        addi    a2, sp, 16
        sub     a2, a2, t0
        li      a7, 64
        ecall
        addi    sp, sp, 16
        ret
