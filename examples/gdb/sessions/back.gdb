# back to a breakpoint twice, and to the begin; lines forward and back
target remote | ./rrs gdb sums
break sums.c:9 if i == 3
continue
print i
print result
break main
reverse-continue
reverse-continue
info registers pc
continue
delete
next
next
reverse-next
reverse-step
tbreak sum
continue
up
down
reverse-finish
reverse-stepi 5
step
set exec-direction reverse
step
