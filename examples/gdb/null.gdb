# null.s
# A jump to 0: the run stops there, and the step from there traps without a handler.
continue
print $pc
reverse-stepi
continue
continue
