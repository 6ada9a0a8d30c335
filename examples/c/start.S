# Where the file begins: the stack ends where the 65,536 bytes end. What main returns is in a0
# when the program asks, by ecall, to exit (93).
    .section .text.start
    .globl _start
_start:
    lui sp, 0x10
    call main
    li a7, 93
    ecall
