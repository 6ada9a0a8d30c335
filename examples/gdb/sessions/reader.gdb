# a program that reads a file, back before a read, and forward again
target remote | ./rrs gdb --input input reader one two
break read_some
continue
continue
print line
print lines
continue
print line
reverse-continue
reverse-continue
print line
print lines
delete
watch lines
continue
print line
delete
monitor stop-at-exit off
continue
