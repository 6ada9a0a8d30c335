# a history that is made shorter and longer, that is too short, or none
target remote | ./rrs gdb --input input reader
monitor history 1000
break read_some
continue
continue
continue
monitor steps
monitor history 100
monitor steps
reverse-continue
monitor history 1000000
continue
print line
monitor steps
monitor history 20
monitor steps
print lines
reverse-continue
print lines
reverse-stepi
monitor history 0
continue
reverse-stepi
delete
watch lines
continue
print line
stepi
monitor stop-at-exit off
delete
continue
