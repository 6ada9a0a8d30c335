# Constants that are negative, a %pcrel_lo before its %pcrel_hi, and an escape in a macro with a
# parameter of its name. The status is 57.
	.equ	frame, -32
	.equ	step, frame / 4
	.macro	end_of_line n
	li	a0, '\n'
	li	a1, \n
	.endm

	.text
	.globl	_start
_start:	j	2f
1:	lw	a2, %pcrel_lo(2f)(a2)
	li	a3, step
	add	a2, a2, a3
	end_of_line	5
	add	a0, a0, a1
	add	a0, a0, a2
	li	a7, 93
	ecall
2:	auipc	a2, %pcrel_hi(number)
	j	1b

	.section .rodata
	.zero	20
number:	.word	50, frame % 12, frame < 0, frame >> 60, 2 * step
	.dword	frame
