# The kernel begins, a trap of its process in user mode arrives, and goes back there.
set confirm off
set pagination off
set remotetimeout 200
break start_kernel
continue
printf "at start_kernel: mode %d, MPP %d\n", $priv, $mstatus >> 11 & 3
delete
break handle_exception if ($mstatus & 0x1800) == 0
continue
printf "at handle_exception: mode %d, mcause %d\n", $priv, $mcause
delete
tbreak *($mepc + 4)
continue
printf "behind the call: mode %d\n", $priv
kill
