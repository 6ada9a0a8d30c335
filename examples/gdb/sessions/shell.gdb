# a shell on the UART that gets a file, its traps and its status; a limit, a wfi that nothing wakes, and two harts that are dead
target remote | ./rrs gdb --board --input shell.input shell.elf
break main
continue
break trap
continue
info registers mcause mtval mepc
x/i $mepc
finish
print/x $mepc
continue
info registers mcause mtval mepc mie
x/i $mepc
finish
print last_cause
set var last_cause = 12
delete
continue
file scheduler.elf
target remote | ./rrs gdb --board --limit 1000 scheduler.elf
continue
print $minstret
kill
file waits.elf
target remote | ./rrs gdb --board --memory 65536 waits.elf
continue
info registers pc mie
x/i $pc - 4
x/xb 0x8000ffff
x/xb 0x80010000
kill
file spins.elf
target remote | ./rrs gdb --board spins.elf
continue
info registers mie
x/i $pc
continue
x/i $pc
kill
file astray.elf
target remote | ./rrs gdb --board astray.elf
continue
info registers pc mepc mcause
continue
kill
