# trap.s
# Registers by name, control registers, the mode, and expressions over them.
break handler
continue
info registers pc sp ra
print/x $mcause
print/x $mepc
print $priv
print $sp - $mepc
info registers mstatus mtvec mcause mepc
