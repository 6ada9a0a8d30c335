# a watchpoint on a local variable, forward, back and out of its scope
target remote | ./rrs gdb points
break length_of
continue
backtrace
watch length
continue
continue
reverse-continue
continue
continue
