# Fibonacci numbers, which macros compute while they are assembled: a macro calls itself.
	.macro	fibonacci count, one, other
	.if	\count
	.word	\one
	fibonacci \count - 1, \other, "(\one + \other)"
	.endif
	.endm

	.macro	print_line register
	mv	a0, \register
	call	print_decimal
	li	a0, '\n'
	call	putchar
	.endm

	.text
	.globl	_start
_start:
	la	s0, numbers
	la	s1, end_of_numbers
1:	bgeu	s0, s1, 2f
	lw	t0, 0(s0)
	print_line t0
	addi	s0, s0, 4
	j	1b
2:	li	a0, 0
	li	a7, 93
	ecall

print_decimal:
	addi	sp, sp, -16
	sw	ra, 12(sp)
	sw	s0, 8(sp)
	li	t0, 10
	remu	s0, a0, t0
	divu	a0, a0, t0
	beqz	a0, 1f
	call	print_decimal
1:	addi	a0, s0, '0'
	call	putchar
	lw	s0, 8(sp)
	lw	ra, 12(sp)
	addi	sp, sp, 16
	ret

putchar:
	addi	sp, sp, -16
	sb	a0, 15(sp)
	li	a0, 1
	addi	a1, sp, 15
	li	a2, 1
	li	a7, 64
	ecall
	addi	sp, sp, 16
	ret

	.data
numbers:
	fibonacci 12, 0, 1
end_of_numbers:
