"use strict";

// The programs of the example menu, in the order of a course.

/* The memory and the calls of an example, where it says no other. */
const OF_EXAMPLES = { language: "assembly", calls: "rars", size: 1 << 16, hasStack: true };

/* Of each: its name in the menu, whether it stands among those that fault, a sentence, its text, and
 * where it is other than in OF_EXAMPLES. */
const EXAMPLES = [
  {
    id: "hello",
    name: "Hello",
    about: "It prints a line, and ends. Run it, or make it step by step. Edit has its text.",
    text: `# Prints a line, and ends.
    .data
text:
    .asciz "Hello\\n"
    .text
main:
    la   a0, text
    li   a7, 4              # PrintString
    ecall
    li   a7, 10             # Exit
    ecall
`,
  },
  {
    id: "sum",
    name: "Sum of a list",
    about: "A loop adds the numbers of a list, and prints 31.",
    text: `# Adds the numbers of a list, and prints their sum.
    .data
numbers:
    .word 3, 1, 4, 1, 5, 9, 2, 6
count = (. - numbers) / 4

    .text
main:
    la   t0, numbers
    li   t1, count
    li   a0, 0
loop:
    lw   t2, 0(t0)
    add  a0, a0, t2
    addi t0, t0, 4
    addi t1, t1, -1
    bnez t1, loop
    li   a7, 1              # PrintInt
    ecall
    li   a7, 10             # Exit
    ecall
`,
  },
  {
    id: "max",
    name: "The greatest of a list",
    about: "Each number is compared with the greatest of those before it. It prints 42.",
    text: `# Prints the greatest number of a list.
    .data
numbers:
    .word 7, -3, 42, 19, 0, 41
count = (. - numbers) / 4

    .text
main:
    la   t0, numbers
    li   t1, count - 1
    lw   a0, 0(t0)          # the greatest one so far
next:
    addi t0, t0, 4
    lw   t2, 0(t0)
    ble  t2, a0, smaller
    mv   a0, t2
smaller:
    addi t1, t1, -1
    bnez t1, next
    li   a7, 1              # PrintInt
    ecall
    li   a7, 10             # Exit
    ecall
`,
  },
  {
    id: "length",
    name: "Length of a string",
    about: "A function counts the letters up to the 0 behind them.",
    text: `# Prints how many letters a string has.
    .data
text:
    .asciz "RISC-V"

    .text
main:
    la   a0, text
    call length
    li   a7, 1              # PrintInt
    ecall
    li   a7, 10             # Exit
    ecall

# a0: the address of a string, and then how many letters it has.
length:
    mv   t0, a0
letter:
    lbu  t1, 0(t0)
    beqz t1, end
    addi t0, t0, 1
    j    letter
end:
    sub  a0, t0, a0
    ret
`,
  },
  {
    id: "factorial",
    name: "Factorial by recursion",
    about: "A function that calls itself keeps its values on the stack: look at Calls and at Memory.",
    text: `# Prints 5!, which is 120.
main:
    li   a0, 5
    call factorial
    li   a7, 1              # PrintInt
    ecall
    li   a7, 10             # Exit
    ecall

# a0: a number, and then its factorial.
factorial:
    li   t0, 2
    blt  a0, t0, one
    addi sp, sp, -16
    sw   ra, 12(sp)
    sw   a0, 8(sp)
    addi a0, a0, -1
    call factorial
    lw   t1, 8(sp)
    mul  a0, a0, t1
    lw   ra, 12(sp)
    addi sp, sp, 16
    ret
one:
    li   a0, 1
    ret
`,
  },
  {
    id: "sort",
    name: "Sorting",
    about: "Eight numbers are sorted by insertion, and printed.",
    text: `# Sorts eight numbers, and prints them.
    .data
numbers:
    .word 3, 1, 4, 1, 5, 9, 2, 6
count = (. - numbers) / 4

    .text
main:
    la   a0, numbers
    li   a1, count
    call sort
    la   s0, numbers
    li   s1, count
print:
    lw   a0, 0(s0)
    li   a7, 1              # PrintInt
    ecall
    li   a0, ' '
    li   a7, 11             # PrintChar
    ecall
    addi s0, s0, 4
    addi s1, s1, -1
    bnez s1, print
    li   a7, 10             # Exit
    ecall

# Sorts the a1 words from a0 on, by insertion.
sort:
    slli a1, a1, 2
    add  a1, a0, a1         # where they end
    addi a2, a0, 4
next:
    bgeu a2, a1, sorted
    lw   a3, 0(a2)
    mv   a4, a2
shift:
    beq  a4, a0, put
    lw   a5, -4(a4)
    ble  a5, a3, put
    sw   a5, 0(a4)
    addi a4, a4, -4
    j    shift
put:
    sw   a3, 0(a4)
    addi a2, a2, 4
    j    next
sorted:
    ret
`,
  },
  {
    id: "list",
    name: "A linked list",
    about: "Each node has a number and the address of the next node; the last one has 0.",
    text: `# Prints the numbers of a linked list. A node is a number, and the address of the next.
    .data
first:
    .word 10, second
third:
    .word 30, 0
second:
    .word 20, third

    .text
main:
    la   s0, first
node:
    lw   a0, 0(s0)
    li   a7, 1              # PrintInt
    ecall
    li   a0, '\\n'
    li   a7, 11             # PrintChar
    ecall
    lw   s0, 4(s0)
    bnez s0, node
    li   a7, 10             # Exit
    ecall
`,
  },
  {
    id: "question",
    name: "A question and an answer",
    about: "It reads numbers until one is 0, and prints their sum. Type them into the console.",
    text: `# Reads numbers until one is 0, and prints their sum.
    .data
question:
    .asciz "A number, or 0 to end: "
answer:
    .asciz "The sum is "

    .text
main:
    li   s0, 0
ask:
    la   a0, question
    li   a7, 4              # PrintString
    ecall
    li   a7, 5              # ReadInt
    ecall
    add  s0, s0, a0
    bnez a0, ask
    la   a0, answer
    li   a7, 4
    ecall
    mv   a0, s0
    li   a7, 1              # PrintInt
    ecall
    li   a7, 10             # Exit
    ecall
`,
  },
  {
    id: "port",
    name: "A string to a port",
    about: "Each letter is stored at 0x10000000. There is no memory but a device, which prints it.",
    text: `# Stores the letters of a string to the port of a device, which prints them.
    .data
text:
    .asciz "Hello, RISC-V!\\n"

    .text
main:
    li   t0, 0x10000000     # the port
    la   t1, text
put:
    lbu  t2, 0(t1)
    beqz t2, end
    sb   t2, 0(t0)
    addi t1, t1, 1
    j    put
end:
    li   a7, 10             # Exit
    ecall
`,
  },
  {
    id: "interrupts",
    name: "Interrupts of a timer",
    about: "A loop counts, and a timer interrupts it: the handler prints how often it came.",
    calls: "machine",
    text: `# Counts in a loop, which a timer interrupts each 50 instructions.
main:
    la   t0, handler
    csrw mtvec, t0          # where an interrupt goes to
    li   t0, 0x80
    csrw mie, t0            # that of the timer is enabled,
    call again
    li   t0, 8
    csrw mstatus, t0        # and interrupts are on
count:
    addi s0, s0, 1
    j    count

# Prints a digit, and leaves the registers but s1 as they were. The fifth time it ends.
handler:
    addi sp, sp, -16
    sw   ra, 12(sp)
    sw   t0, 8(sp)
    sw   t1, 4(sp)
    addi s1, s1, 1
    addi t1, s1, '0'
    li   t0, 0x10000000     # the port
    sb   t1, 0(t0)
    li   t0, 5
    beq  s1, t0, end
    call again
    lw   ra, 12(sp)
    lw   t0, 8(sp)
    lw   t1, 4(sp)
    addi sp, sp, 16
    mret                    # back to the loop
end:
    li   t0, 0x100000       # the finisher
    li   t1, 0x5555
    sw   t1, 0(t0)

# Has the timer interrupt 50 instructions from now.
again:
    li   t0, 0x0200bff8     # the time
    lw   t1, 0(t0)
    addi t1, t1, 50
    li   t0, 0x02004000     # the time of the interrupt
    sw   t1, 0(t0)
    sw   zero, 4(t0)
    ret
`,
  },
  {
    id: "linux",
    name: "Hello by the calls of Linux",
    about: "The same line by write and exit, as a program of Linux prints it.",
    calls: "linux",
    text: `# Prints a line by the calls of Linux, and ends with status 0.
    .data
text:
    .ascii "Hello\\n"
length = . - text

    .text
_start:
    li   a0, 1              # to the output
    la   a1, text
    li   a2, length
    li   a7, 64             # write
    ecall
    li   a0, 0
    li   a7, 93             # exit
    ecall
`,
  },
  {
    id: "million",
    name: "A million steps",
    about: "A loop that counts down. Run back takes it back to its first state.",
    text: `# Counts down from 500,000.
main:
    li   t0, 500000
loop:
    addi t0, t0, -1
    bnez t0, loop
    li   a7, 10             # Exit
    ecall
`,
  },
  {
    id: "convention",
    name: "A register that is lost",
    about: "It prints 0 and not 120. The remarks at Calls tell why.",
    text: `# Is to print 5!, and does not: factorial does not save s0.
main:
    li   t0, 0              # a call may change t0
    li   a0, 5
    call factorial
    add  a0, a0, t0
    li   a7, 1              # PrintInt
    ecall
    li   a7, 10             # Exit
    ecall

# a0: a number, and then its factorial.
factorial:
    addi sp, sp, -16
    sw   ra, 12(sp)
    mv   s0, a0             # which has to be as it was at the return
    li   a0, 1
    beqz s0, done
    addi a0, s0, -1
    call factorial
    mul  a0, a0, s0
done:
    lw   ra, 12(sp)
    addi sp, sp, 16
    ret
`,
  },
  {
    id: "words",
    name: "Three words of hexadecimal digits",
    about: "An instruction is a word of 32 bits. Behind these three a call ends the program.",
    language: "words",
    text: `0x1234b137  # x2 = 0x1234b000
0xf387e1b7  # x3 = 0xf387e000
0x003100b3  # x1 = x2 + x3
0x00a00893  # x17 = 10, which is Exit
0x00000073  # ecall
`,
  },
  {
    id: "recursion",
    name: "A recursion without an end",
    isFault: true,
    text: `main:
    addi sp, sp, -16
    sw   ra, 12(sp)
    call main
`,
  },
  {
    id: "exit",
    name: "No exit",
    isFault: true,
    text: `main:
    li   a0, 5
    addi a0, a0, 1
`,
  },
  {
    id: "stack",
    name: "A stack that was never set",
    isFault: true,
    hasStack: false,
    text: `main:
    addi sp, sp, -16
    sw   ra, 12(sp)
`,
  },
  {
    id: "load",
    name: "A load where there is no memory",
    isFault: true,
    text: `main:
    li   t0, 0x20000000
    lw   a0, 0(t0)
`,
  },
  {
    id: "misaligned",
    name: "A misaligned address",
    isFault: true,
    text: `main:
    li   t0, 0x102
    lw   a0, 0(t0)          # 4 bytes at an address that is no multiple of 4
`,
  },
  {
    id: "jump",
    name: "A jump to where there is no memory",
    isFault: true,
    text: `main:
    li   t0, 0x20000000
    jr   t0
`,
  },
  {
    id: "code",
    name: "A store to an instruction",
    isFault: true,
    text: `main:
    la   t0, main
    sw   zero, 0(t0)
`,
  },
  {
    id: "ecall",
    name: "A call of another system",
    isFault: true,
    calls: "linux",
    text: `main:
    li   a0, 42
    li   a7, 1              # PrintInt of RARS, where the calls of Linux are chosen
    ecall
    li   a7, 10
    ecall
`,
  },
].map((example) => ({ isFault: false, about: "", ...OF_EXAMPLES, ...example }));
