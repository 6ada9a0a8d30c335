# Where a process begins: sp points to the number of the arguments, behind which their addresses
# lie. Calls the constructors and main, and ends with its answer as the status. exit calls the
# destructors.
        .section .text.start, "ax"
        .globl _start
_start:
        .option push
        .option norelax
        la      gp, __global_pointer$
        .option pop
        la      tp, __tls_start
        mv      s0, sp
        call    __libc_init_array
        lw      a0, 0(s0)
        addi    a1, s0, 4
        slli    a2, a0, 2
        add     a2, a2, a1
        addi    a2, a2, 4
        la      t0, environ
        sw      a2, 0(t0)
        la      t0, argument_0
        lw      t1, 0(a1)
        sw      t1, 0(t0)
        call    main
        call    exit
