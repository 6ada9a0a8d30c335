# Saves and restores registers by repetitions, and shows that they are as they were.
	.macro	save_all
	addi	sp, sp, -48
	.irp	number, 0, 1, 2, 3, 4, 5, 6, 7, 8, 9, 10, 11
	sw	s\number, 4 * \number(sp)
	.endr
	.endm

	.macro	restore_all
	.irp	number, 0, 1, 2, 3, 4, 5, 6, 7, 8, 9, 10, 11
	lw	s\number, 4 * \number(sp)
	.endr
	addi	sp, sp, 48
	.endm

	.text
	.globl	_start
_start:
	.irp	number, 0, 1, 2, 3, 4, 5, 6, 7, 8, 9, 10, 11
	li	s\number, \number
	.endr
	call	spoil
	li	t0, 0
	.irp	number, 0, 1, 2, 3, 4, 5, 6, 7, 8, 9, 10, 11
	add	t0, t0, s\number
	.endr
	mv	a0, t0
	li	a7, 93
	ecall

spoil:
	save_all
	.irp	number, 0, 1, 2, 3, 4, 5, 6, 7, 8, 9, 10, 11
	li	s\number, -1
	.endr
	restore_all
	ret
