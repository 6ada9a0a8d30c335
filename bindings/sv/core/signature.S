# A test in the shape that those of riscv-arch-test have: it leaves results between begin_signature
# and end_signature, and a store to tohost ends it.
    .globl _start
    .section .text.init, "ax"
_start:
    la x1, begin_signature
    lui x2, 0x80000
    addi x3, x0, -1
    mulhsu x4, x3, x2
    sw x4, 0(x1)
    div x5, x2, x3
    sw x5, 4(x1)
    div x6, x2, x2
    rem x6, x2, x3
    sw x6, 8(x1)
    sra x7, x2, x3
    sh x7, 12(x1)
    sb x3, 15(x1)
    lw x8, word
    sw x8, 16(x1)
    lw x8, empty
    sw x8, 20(x1)
    lui x11, 0x10000 # the device: its status, and the second of its numbers
    lw x12, 4(x11)
    sw x12, 28(x1)
    lw x12, 0(x11)
    lw x12, 0(x11)
    sw x12, 32(x1)
    addi x9, x0, 1
    la x10, tohost
write_tohost:
    sw x9, 0(x10)
    j write_tohost

    .section .tohost, "aw"
    .globl tohost
tohost:
    .dword 0

    .data
begin_signature_of_another: # whose name begins as that of the one below
word:
    .word 0x12345678
    .balign 16
    .globl begin_signature
begin_signature:
    .fill 9, 4, 0xdeadbeef
    .globl end_signature
end_signature:

    .bss
empty:
    .space 64
