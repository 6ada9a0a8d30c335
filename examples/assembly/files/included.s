# Prints a part of a file that lies beside the source. The status is how long the file is.
	.data
whole:	.incbin	"included.txt"
	.equ	length, . - whole
part:	.incbin	"included.txt", 0x4, 8; .byte '\n'
	.incbin	"included.txt", 29
	.equ	part_length, . - part

	.text
	.globl	_start
_start:	li	a0, 1
	la	a1, part
	li	a2, part_length
	li	a7, 64
	ecall
	li	a0, length
	li	a7, 93
	ecall
