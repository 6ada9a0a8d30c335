# a session that detaches
target remote | ./rrs gdb sums
break sum
continue
print count
detach
print total
