# The factorials of 0 to 10, with macros for the frames of calls.
	.macro	enter saved:vararg
	addi	sp, sp, -16
	sw	ra, 12(sp)
	keep	sw, 8, \saved
	.endm

	.macro	leave saved:vararg
	keep	lw, 8, \saved
	lw	ra, 12(sp)
	addi	sp, sp, 16
	ret
	.endm

	# one load or store for each register
	.macro	keep what, offset, first, others:vararg
	.ifnb	\first
	\what	\first, \offset(sp)
	keep	\what, \offset - 4, \others
	.endif
	.endm

	.macro	print_char value
	li	a0, \value
	call	putchar
	.endm

	.text
	.globl	_start
_start:
	li	s0, 0
1:	mv	a0, s0
	call	factorial
	call	print_decimal
	print_char '\n'
	addi	s0, s0, 1
	li	t0, 10
	ble	s0, t0, 1b
	li	a0, 0
	li	a7, 93
	ecall

factorial:
	enter	s0, s1
	li	s1, 1
	mv	s0, a0
1:	blez	s0, 2f
	mul	s1, s1, s0
	addi	s0, s0, -1
	j	1b
2:	mv	a0, s1
	leave	s0, s1

# first what is before the last digit, by a call of itself
print_decimal:
	enter	s0
	li	t0, 10
	remu	s0, a0, t0
	divu	a0, a0, t0
	beqz	a0, 1f
	call	print_decimal
1:	addi	a0, s0, '0'
	call	putchar
	leave	s0

putchar:
	addi	sp, sp, -16
	sb	a0, 15(sp)
	li	a0, 1
	addi	a1, sp, 15
	li	a2, 1
	li	a7, 64
	ecall
	addi	sp, sp, 16
	ret
