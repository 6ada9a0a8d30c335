# Copies the a2 words from address a1 on to those from a0 on.
copy_words:
    beqz a2, copied
    slli a2, a2, 2
    add  a4, a1, a2
copy:
    lw   a5, (a1)
    addi a1, a1, 4
    addi a0, a0, 4
    sw   a5, -4(a0)
    bne  a1, a4, copy
copied:
    ret
