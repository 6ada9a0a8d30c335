# a struct that is printed, changed, and read again
target remote | ./rrs gdb points
tbreak length_of
continue
print *point
print *point->next
print first.name
ptype point
set var first.x = -7
set var second.name = "other"
print first
print second.name
print &first == point
awatch first.next
rwatch second.x
continue
delete
print depth(2)
print length_of(&second)
p/x *(char*)0x10
x/2xw 0xfffffff0
set var *(int*)main = 0
kill
