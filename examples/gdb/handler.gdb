# timer.s
# In an interrupt's handler, and in a function that it calls, the backtrace goes on at what was interrupted.
tbreak tick
continue
bt
tbreak arm
continue
bt
finish
print/x $mcause
reverse-finish
info symbol $pc
