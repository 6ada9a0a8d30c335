# Prints messages, with a macro that lays the text out and a default for where it is printed.
	.equ	DEBUG, 1
	.equ	LEVEL, 2

	.macro	say text, to=1
	.section .rodata
.Ltext\@:
	.ascii	"\text"
.Lend\@:
	.text
	li	a0, \to
	la	a1, .Ltext\@
	la	a2, .Lend\@
	sub	a2, a2, a1
	li	a7, 64
	ecall
	.endm

	.text
	.globl	_start
_start:
	say	"one\n"
	say	to=1, text="two, three\n"
	.if	DEBUG
	say	"debugging\n"
	.else
	say	"not debugging\n"
	.endif
	.if	LEVEL == 1
	say	"level one\n"
	.elseif	LEVEL == 2
	say	"level two\n"
	.else
	say	"another level\n"
	.endif
	.ifdef	QUIET
	say	"quiet\n"
	.endif
	.ifndef	QUIET
	say	"loud\n"
	.endif
	li	a0, 7
	li	a7, 93
	ecall
