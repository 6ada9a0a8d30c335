# The sum of the a1 words from address a0 on, in a2.
sum_loop:
    li   a2, 0
next:
    beqz a1, done
    lw   a3, (a0)
    add  a2, a2, a3
    addi a0, a0, 4
    addi a1, a1, -1
    j    next
done:
