# Checks of arithmetic, each by a macro that counts what holds: the status is how many fail.
	.macro	check operation, first, second, wanted
	li	t0, \first
	li	t1, \second
	\operation t2, t0, t1
	li	t3, \wanted
	addi	s0, s0, 1
	beq	t2, t3, 1f
	addi	s1, s1, 1
1:
	.endm

	.text
	.globl	_start
_start:
	li	s0, 0
	li	s1, 0
	check	add, 2, 3, 5
	check	sub, 2, 3, -1
	check	mul, -4, 6, -24
	check	div, 7, 0, -1
	check	rem, 7, 0, 7
	check	sll, 1, 33, 2
	check	sra, -8, 1, -4
	check	slt, -1, 1, 1
	check	sltu, -1, 1, 0
	check	xor, 12, 10, 6
	# this one is wrong
	check	and, 12, 10, 9
	.purgem	check
	mv	a0, s0
	addi	a0, a0, '0' - 2
	addi	sp, sp, -16
	sb	a0, (sp)
	li	a0, '\n'
	sb	a0, 1(sp)
	li	a0, 1
	mv	a1, sp
	li	a2, 2
	li	a7, 64
	ecall
	mv	a0, s1
	li	a7, 93
	ecall
