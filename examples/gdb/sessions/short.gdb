# compressed code: breakpoints and steps at even addresses, a watchpoint, and back
target remote | ./rrs gdb short
break sum
continue
info registers pc
stepi 3
x/2i $pc
reverse-stepi 2
info registers pc ra
finish
watch total
continue
continue
reverse-continue
reverse-stepi
info registers pc
delete
continue
