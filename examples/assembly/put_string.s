# Writes each byte of the string at a1, up to the 0 after it, to the port at a0.
put_string:
    lbu  a5, (a1)
    bnez a5, 1f
    ret
1:  addi a1, a1, 1
    sb   a5, (a0)
    j    put_string
