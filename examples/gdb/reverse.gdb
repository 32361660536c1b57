# recursion.s
# Backward: by a step, to the last breakpoint, and to the first step.
break put
continue
continue
print (char) $a0
reverse-stepi
info symbol $pc
reverse-continue
reverse-continue
stepi
reverse-stepi
print $pc
