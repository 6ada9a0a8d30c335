# Ackermann's function, with a stack frame for each call that is not the last of its function.
	.text
	.align	2
	.globl	_start
_start:
	li	s0, 0
row:
	li	s1, 0
column:
	mv	a0, s0
	mv	a1, s1
	jal	ra, ack
	jal	ra, print_decimal
	li	a0, ' '
	jal	ra, putchar
	addi	s1, s1, 1
	li	t0, 4
	ble	s1, t0, column
	li	a0, '\n'
	jal	ra, putchar
	addi	s0, s0, 1
	li	t0, 3
	ble	s0, t0, row
	li	a0, 3
	li	a1, 3
	jal	ra, ack
	li	a7, 93
	ecall

ack:
	bne	a0, zero, 1f
	addi	a0, a1, 1
	ret
1:	bne	a1, zero, 2f
	addi	a0, a0, -1
	li	a1, 1
	j	ack
2:	addi	sp, sp, -8
	sw	ra, 4(sp)
	sw	a0, 0(sp)
	addi	a1, a1, -1
	jal	ra, ack
	mv	a1, a0
	lw	a0, 0(sp)
	lw	ra, 4(sp)
	addi	sp, sp, 8
	addi	a0, a0, -1
	j	ack

# void print_decimal(unsigned n): first what is before the last digit, by a call of itself
print_decimal:
    addi    sp, sp, -16
    sw      ra, 12(sp)
    sw      s0, 8(sp)
    li      t0, 10
    remu    s0, a0, t0
    divu    a0, a0, t0
    beqz    a0, last_digit
    call    print_decimal
last_digit:
    addi    a0, s0, 48
    call    putchar
    lw      s0, 8(sp)
    lw      ra, 12(sp)
    addi    sp, sp, 16
    ret

# Prints the character a0.
putchar:
    addi sp, sp, -16
    sb   a0, 15(sp)
    li   a0, 1
    addi a1, sp, 15
    li   a2, 1
    li   a7, 64
    ecall
    addi sp, sp, 16
    ret
