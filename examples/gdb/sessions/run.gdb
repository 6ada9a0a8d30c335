# a program that is started, with arguments, more than once, and what monitor says
target extended-remote | ./rrs gdb reader
set args one "two three" four
break main
run
print count
print words[1]
print words[2]
delete
monitor help
monitor limit
monitor history
monitor stop-at-exit
monitor history 100
monitor limit 500
continue
monitor steps
reverse-stepi
monitor steps
catch syscall
monitor limit 1000000
monitor stop-at-exit off
run
start
print count
continue
