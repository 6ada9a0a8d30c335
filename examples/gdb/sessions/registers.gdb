# registers, instructions, many steps, and a limit
target remote | ./rrs gdb spin
x/20i $pc
info registers
stepi 20
info registers pc
print $a0 = 5
info registers a0
print $sp = $sp - 16
print $pc = main
info registers pc
stepi 1000
print counter
monitor steps
monitor limit 1000
continue
print counter
print/x $pc
kill
