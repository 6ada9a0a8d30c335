# misaligned loads and stores and extension A: watchpoints forward and back, single steps, and a
# reservation that is given back
target remote | ./rrs gdb mended
break main
continue
watch *(unsigned *)(bytes + 6)
watch count
continue
continue
print/x *(unsigned *)(bytes + 6)
continue
monitor steps
awatch *(unsigned *)(bytes + 1)
reverse-continue
reverse-continue
print *(unsigned *)(bytes + 6)
reverse-continue
reverse-continue
info registers pc
x/8xb bytes
print count
delete
tbreak next
continue
stepi 2
x/4i $pc
stepi
reverse-stepi
stepi 3
print count
reverse-stepi
print count
stepi
print count
monitor steps
break print
continue
delete
continue
x/i $pc
print place
monitor steps
reverse-stepi
x/i $pc
stepi
kill
