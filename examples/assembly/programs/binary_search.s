# Looks for some keys in a sorted table. For each it prints the index, or -1. The status is how many
# were found.
.data
table:  .word -90, -3, 0, 1, 4, 9, 16, 25, 36, 49, 64, 81, 100, 121
.equ    table_size, . - table
.equ    entries, table_size / 4
keys:   .word 16, -90, 121, 5, 1000, 0, -100
.equ    keys_size, . - keys
.equ    wanted, keys_size / 4
newline: .byte 10

.text
.globl _start
_start:
    la    s0, keys
    li    s1, wanted
    li    s2, 0
next_key:
    lw    a0, 0(s0)
    la    a1, table
    li    a2, entries
    call  search
    sltz  t0, a0
    xori  t0, t0, 1
    add   s2, s2, t0
    call  print_number
    li    a0, 1
    la    a1, newline
    li    a2, 1
    li    a7, 64
    ecall
    addi  s0, s0, 4
    addi  s1, s1, -1
    bgtz  s1, next_key
    mv    a0, s2
    li    a7, 93
    ecall

search:
    li    t0, 0                 # the first that can be it
1:  bge   t0, a2, 4f
    add   t1, t0, a2
    srai  t1, t1, 1
    slli  t2, t1, 2
    add   t2, t2, a1
    lw    t2, 0(t2)
    beq   t2, a0, 3f
    blt   t2, a0, 2f
    mv    a2, t1
    j     1b
2:  addi  t0, t1, 1
    j     1b
3:  mv    a0, t1
    ret
4:  li    a0, -1
    ret

# print_number(a0): a signed number
print_number:
    la   t0, digits_end
    li   t1, 10
    mv   t2, a0
    bgez a0, 1f
    neg  t2, a0
1:  remu t3, t2, t1
    addi t3, t3, '0'
    addi t0, t0, -1
    sb   t3, (t0)
    divu t2, t2, t1
    bnez t2, 1b
    bgez a0, 2f
    li   t3, '-'
    addi t0, t0, -1
    sb   t3, (t0)
2:  li   a0, 1
    mv   a1, t0
    la   a2, digits_end
    sub  a2, a2, t0
    li   a7, 64
    ecall
    ret

    .bss
digits:
    .space 12
digits_end:
