# Two constants in the upper 20 bits, and their sum.
    lui  sp, 0x1234b
    lui  gp, 0xf387e
    add  ra, sp, gp
