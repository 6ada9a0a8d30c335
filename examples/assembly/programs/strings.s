# strlen, strcpy, strcat and strcmp, as a C library has them.
        .equ    STDOUT, 1
        .equ    SYS_WRITE, 64
        .equ    SYS_EXIT, 93
        .section .rodata
hello:  .asciz  "Hello"
world:  .asciz  ", world!\n"
        .bss
buffer: .space  64

        .text
        .globl  _start
_start:
        la      a0, buffer
        la      a1, hello
        call    strcpy
        la      a0, buffer
        call    strlen
        la      t0, buffer
        add     a0, a0, t0
        la      a1, world
        call    strcpy
        la      a0, buffer
        call    puts
        la      a0, buffer
        la      a1, hello
        call    strcmp                  # the longer is greater
        bgtz    a0, greater
        li      a0, 1
        li      a7, SYS_EXIT
        ecall
greater:
        la      a0, buffer
        call    strlen
        li      a7, SYS_EXIT
        ecall

strlen:
        mv      t0, a0
1:      lbu     t1, 0(t0)
        beqz    t1, 2f
        addi    t0, t0, 1
        j       1b
2:      sub     a0, t0, a0
        ret

strcpy:
        lbu     t0, 0(a1)
        sb      t0, 0(a0)
        addi    a1, a1, 1
        addi    a0, a0, 1
        bnez    t0, strcpy
        ret

strcmp:
        lbu     t0, 0(a0)
        lbu     t1, 0(a1)
        bne     t0, t1, 1f
        addi    a0, a0, 1
        addi    a1, a1, 1
        bnez    t0, strcmp
1:      sub     a0, t0, t1
        ret

puts:                           # a0 = address of a zero-terminated string
        mv      a1, a0
puts_next:
        lbu     t0, 0(a0)
        addi    a0, a0, 1
        bne     t0, zero, puts_next
        sub     a2, a0, a1
        addi    a2, a2, -1
        li      a0, STDOUT
        li      a7, SYS_WRITE
        ecall
        jr      ra
