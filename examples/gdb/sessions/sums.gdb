# breakpoints, a backtrace, arguments, a value that is returned, a watchpoint, and back
target remote | ./rrs gdb sums
info registers pc sp
break sum
continue
backtrace
info args
print *numbers@count
finish
watch total
continue
print total
reverse-stepi
print total
reverse-continue
print total
info registers pc
delete
x/4i $pc
set var table[0] = 100
print sum(table, 2)
continue
continue
