# timer.s
# An interrupt comes at its step; a breakpoint in its handler is hit.
break tick
continue
print/x $mcause
info symbol $mepc
continue
delete
continue
