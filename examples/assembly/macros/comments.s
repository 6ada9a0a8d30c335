/* Block comments: before lines, between them and in them,
   with # and " and .endm and _start: in them. */
	.data
text:	.ascii	"a /* b */ c\n"	# /* of one line
	.equ	length, . - text
	.text
	.globl	_start
_start:	li	a0, 1 /* the output */
	la	a1, text ; /* two
	nop
	lines */ li	a2, length
	li	a7, 64
	ecall
	.macro	leave status /* a parameter */
	li	a0, \status /* .endm */
	li	a7, 93 /**/
	ecall
	.endm
	li	a1, '/' /*/ is not over **/
	leave	42 /* '*' */
