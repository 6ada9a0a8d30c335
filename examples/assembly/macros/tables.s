# Tables that repetitions lay out: sixteen squares, the letters of a word, and the sum of both.
	.text
	.globl	_start
_start:
	la	s0, squares
	li	s1, 0
	.rept	16
	lw	t0, (s0)
	add	s1, s1, t0
	addi	s0, s0, 4
	.endr
	la	s0, letters
	.irpc	letter, abc
	lbu	t0, (s0)
	addi	t0, t0, -'a'
	add	s1, s1, t0
	addi	s0, s0, 1
	.endr
	.irp	place, 1000, 100, 10, 1
	li	t0, \place
	divu	a0, s1, t0
	remu	s1, s1, t0
	call	print_digit
	.endr
	li	a0, '\n' - '0'
	call	print_digit
	li	a0, 0
	li	a7, 93
	ecall

print_digit:
	addi	a0, a0, '0'
	addi	sp, sp, -16
	sb	a0, (sp)
	li	a0, 1
	mv	a1, sp
	li	a2, 1
	li	a7, 64
	ecall
	addi	sp, sp, 16
	ret

	.data
squares:
	.macro	square_table from, to
	.word	(\from) * (\from)
	.if	\to - (\from)
	square_table "(\from + 1)", \to
	.endif
	.endm
	square_table 0, 15
letters:
	.irpc	letter, abc
	.byte	'a' + 0x\letter - 0xa
	.endr
