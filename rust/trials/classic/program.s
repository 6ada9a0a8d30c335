# The program that the trial runs. `program.bin` has its words: made by GNU as and objcopy, by
#     riscv64-unknown-elf-as -march=rv32im -mabi=ilp32 program.s -o program.o
#     riscv64-unknown-elf-objcopy -O binary program.o program.bin
    .option norelax
    lui     s0, 0x10000
    addi    t0, x0, 10
loop:
    addi    t1, t0, 64
    sb      t1, 0(s0)
    lw      t2, 0(s0)
    mul     t3, t2, t0
    sw      t3, 0x400(x0)
    lh      t4, 0x402(x0)
    sltu    t5, t4, t3
    slli    t6, t5, 3
    srai    a0, t6, 1
    jal     ra, next
next:
    auipc   a1, 0
    div     a2, t3, t0
    addi    t0, t0, -1
    bne     t0, x0, loop
    fence
    ecall
