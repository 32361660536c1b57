# recursion.s
# A step is exactly one instruction; `next` goes over a call by a breakpoint behind it.
break put
continue
info symbol $pc
stepi
stepi
x/i $pc
delete
tbreak 12
continue
print $a0
