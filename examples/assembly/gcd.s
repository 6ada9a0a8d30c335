# The greatest common divisor of a0 and a1, in a0.
gcd:
    bnez a1, divide
    ret
divide:
    remu a5, a0, a1
    mv   a0, a1
    mv   a1, a5
    j    gcd
