# ends at once, with a gigabyte of zeros after it
    .globl _start
_start:
    li t0, 0x100000          # the finisher: 0x5555 ends with status 0
    li t1, 0x5555
    sw t1, 0(t0)
    .bss
    .space 0x3f000000
