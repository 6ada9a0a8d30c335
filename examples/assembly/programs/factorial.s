	# Prints n! for n from 0 to 12, which is the last one with 32 bits.
	.section .rodata
middle:	.asciz	"! = "
newline:
	.asciz	"\n"

	.text
	.globl	_start
	.type	_start, @function
_start:
	li	s0, 0
	li	s1, 12
again:
	mv	a0, s0
	call	print_int
	la	a0, middle
	call	print_string
	mv	a0, s0
	call	factorial
	call	print_int
	la	a0, newline
	call	print_string
	addi	s0, s0, 1
	ble	s0, s1, again
	li	a7, 93
	li	a0, 0
	ecall
	.size	_start, . - _start

	.type	factorial, @function
factorial:
	bnez	a0, deeper
	li	a0, 1
	ret
deeper:
	addi	sp, sp, -8
	sw	ra, 4(sp)
	sw	a0, 0(sp)
	addi	a0, a0, -1
	call	factorial
	lw	t0, 0(sp)
	mul	a0, a0, t0
	lw	ra, 4(sp)
	addi	sp, sp, 8
	ret
	.size	factorial, .-factorial

# Prints the unsigned number a0 in decimal digits.
print_int:
    addi sp, sp, -16
    addi a1, sp, 16             # the digits are made from the end
    li   t1, 10
1:  remu t2, a0, t1
    addi t2, t2, '0'
    addi a1, a1, -1
    sb   t2, 0(a1)
    divu a0, a0, t1
    bnez a0, 1b
    addi a2, sp, 16
    sub  a2, a2, a1
    li   a0, 1
    li   a7, 64
    ecall
    addi sp, sp, 16
    ret

# Prints the string at a0, which ends with a zero.
print_string:
    mv   a1, a0
    li   a2, 0
1:  add  t0, a1, a2
    lbu  t0, 0(t0)
    beqz t0, 2f
    addi a2, a2, 1
    j    1b
2:  li   a0, 1
    li   a7, 64
    ecall
    ret
