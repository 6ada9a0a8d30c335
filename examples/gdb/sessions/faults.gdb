# faults with their signals and lines, and a program that goes on with one
break main
target remote | ./rrs gdb faults
continue
set var which = 1
continue
backtrace
info registers pc
kill
target remote | ./rrs gdb faults
continue
set var which = 2
continue
kill
target remote | ./rrs gdb faults
continue
set var which = 4
continue
kill
target remote | ./rrs gdb faults
continue
set var which = 3
continue
x/i $pc
continue
