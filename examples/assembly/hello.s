# Prints a line by system calls, and exits with the status 0. For rrs exec.
.equ write, 64
.equ exit, 93
    j    start
text:
    .ascii "Hello from assembly; 6 * 7 = 42\n"
length = . - text
    .balign 4
start:
    li   a0, 1              # standard output
    la   a1, text
    li   a2, length
    li   a7, write
    ecall
    li   a0, 0
    li   a7, exit
    ecall
