# a scheduler: the timer's handler, CSRs by their names, an interrupt that waits until it is enabled,
# and a variable that is watched by single steps
target remote | ./rrs gdb --board scheduler.elf
info registers pc a0 misa mtvec mstatus mie priv
break start_task
continue
info registers mtvec mstatus mie mepc
break schedule
continue
print/x cause
info registers mcause mepc mstatus mip
tbreak holds
continue
info registers mstatus mie mip
print $mie = 0
stepi 2000
info registers pc mip mcause
print $mie = -1
maintenance flush register-cache
info registers mie
stepi
info registers pc mcause mepc mstatus mie
print $cycle = 5
print $mscratch == &frames[1]
print $priv = 0
maintenance flush register-cache
info registers priv
print $priv = 1
print $priv = 3
x/xw 0x2004000
delete
set can-use-hw-watchpoints 0
watch current
continue
delete
break schedule if cause == 11
continue
print turns
info registers mcause mepc mtval
x/i $mepc
delete
continue
