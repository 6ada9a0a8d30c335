        .globl  _start
_start: la      sp, _end + 4096
        call    main
        li      a7, 93
        ecall
