"""Programs that the trials open, by their names: what each is, as the page opens it."""

PROGRAMS = {
    "three": {
        "name": "Three words",
        "about": "Two constants are added. Behind them the memory is 0, which is no instruction.",
        "text": """0x1234b137  # x2 = 0x1234b000
0xf387e1b7  # x3 = 0xf387e000
0x003100b3  # x1 = x2 + x3
""",
    },
    "sum": {
        "name": "Sum of a list",
        "about": "A loop adds eight words of memory. The status is their sum.",
        "text": """start:
0x03000513  # a0: where the list is
0x00800593  # a1: how many words
sum:
0x00000613  # a2: the sum
loop:
0x00058c63
0x00052683
0x00d60633
0x00450513
0xfff58593
0xfedff06f
done:
0x00060513  # the status is the sum
0x05d00893  # exit
0x00000073
numbers:
0x00000003
0x00000001
0x00000004
0x00000001
0x00000005
0x00000009
0x00000002
0x00000006
""",
    },
    "gcd": {
        "name": "Greatest common divisor",
        "about": "gcd(1071, 462) by Euclid's algorithm, as gcc makes it of C. The status is the "
                 "divisor.",
        "text": """start:
0x42f00513
0x1ce00593
0x00c000ef
0x05d00893  # exit: the status is the divisor
0x00000073
gcd:
0x00059463
0x00008067  # return
divide:
0x02b577b3
0x00058513
0x00078593
0xfedff06f
""",
    },
    "console": {
        "name": "A question and an answer",
        "about": "The program writes a question, reads a line of the console, and greets.",
        "text": """start:
0x00100513  # to the output
0x05c00593
0x01300613
0x04000893  # write
0x00000073
0x00000513  # from the input
0x07800593
0x04000613
0x03f00893  # read
0x00000073
0x00050413  # how many bytes came
0x00100513
0x07000593
0x00700613
0x04000893  # write
0x00000073
0x00100513
0x07800593
0x00040613
0x00000073
0x00000513
0x05d00893  # exit
0x00000073
question:
0x74616857  # "What"
0x20736920  # " is "
0x72756f79  # "your"
0x6d616e20  # " nam"
0x00203f65  # "e? ."
hello:
0x6c6c6548  # "Hell"
0x00202c6f  # "o, ."
name:
""",
    },
    "fibonacci": {
        "name": "Fibonacci by recursion",
        "about": "fib(10) by calls that keep their values on the stack: look at memory around sp.",
        "text": """start:
0x00010137  # the stack ends where the memory ends
0x00a00513
0x00c000ef
0x05d00893  # exit: the status is fib(10)
0x00000073
fib:
0x00200293
0x04556063  # fib(0) = 0, fib(1) = 1
0xff010113
0x00112623
0x00812423
0x00912223
0x00050413
0xfff40513
0xfe1ff0ef
0x00050493
0xffe40513
0xfd5ff0ef
0x00950533
0x00412483
0x00812403
0x00c12083
0x01010113
small:
0x00008067
""",
    },
    "million": {
        "name": "A million steps",
        "about": "A loop that counts down. It can be taken back to its first state.",
        "text": """start:
0x0007a2b7
0x11e28293  # t0 = 499,998
0x00000513
0x05d00893
loop:
0xfff28293
0xfe029ee3
0x00000073  # exit
""",
    },
    "sort": {
        "name": "Sorting, in assembly",
        "language": "assembly",
        "about": "Eight numbers are sorted by insertion, and printed. Edit shows the source.",
        "text": """# Sorts eight numbers, and prints them, a digit each.
    .data
numbers:
    .word 3, 1, 4, 1, 5, 9, 2, 6
count = (. - numbers) / 4
digits:
    .space count + 1

    .text
main:
    la   a0, numbers
    li   a1, count
    call sort
    la   a0, numbers
    la   a1, digits
    li   a2, count
    call write_digits
    li   a0, 1              # to the output
    la   a1, digits
    li   a2, count + 1
    li   a7, 64             # write
    ecall
    li   a0, 0
    li   a7, 93             # exit
    ecall

# Sorts the a1 words from a0 on, by insertion.
sort:
    slli a1, a1, 2
    add  a1, a0, a1         # where they end
    addi a2, a0, 4
next:
    bgeu a2, a1, sorted
    lw   a3, (a2)
    mv   a4, a2
shift:
    beq  a4, a0, put
    lw   a5, -4(a4)
    ble  a5, a3, put
    sw   a5, (a4)
    addi a4, a4, -4
    j    shift
put:
    sw   a3, (a4)
    addi a2, a2, 4
    j    next
sorted:
    ret

# Writes a digit for each of the a2 words from a0 on, to a1, and ends the line.
write_digits:
    lw   a3, (a0)
    addi a3, a3, '0'
    sb   a3, (a1)
    addi a0, a0, 4
    addi a1, a1, 1
    addi a2, a2, -1
    bnez a2, write_digits
    li   a3, '\\n'
    sb   a3, (a1)
    ret
""",
    },
    "convention": {
        "name": "A register that is lost",
        "language": "assembly",
        "size": 1048576,
        "hasStack": True,
        "about": "factorial(5) comes out wrong. The remarks at the call stack tell why.",
        "text": """# The status is to be 5! % 256, and is not: factorial does not save s0.
main:
    li   t0, 0              # a call may change t0
    li   a0, 5
    call factorial
    add  a0, a0, t0
    li   a7, 93             # exit
    ecall

# a0: a number, and then its factorial.
factorial:
    addi sp, sp, -16
    sw   ra, 12(sp)
    mv   s0, a0             # which has to be as it was at the return
    li   a0, 1
    beqz s0, done
    addi a0, s0, -1
    call factorial
    mul  a0, a0, s0
done:
    lw   ra, 12(sp)
    addi sp, sp, 16
    ret
""",
    },
    "illegal": {
        "name": "Illegal instruction",
        "text": """0x00100293
0xffffffff  # no instruction
""",
    },
    "fetch": {
        "name": "Fetch outside the memory",
        "text": """0x200002b7
0x00028067  # to where there is no memory
""",
    },
    "misaligned": {
        "name": "Misaligned address",
        "text": """0x10200293
0x0002a303  # 4 bytes at an address that is no multiple of 4
""",
    },
    "ecall": {
        "name": "Unknown system call",
        "text": """0x1f400893
0x00000073
""",
    },
    "ebreak": {
        "name": "ebreak",
        "text": """0x00100293
0x00100073
0x00200293
""",
    },
}
