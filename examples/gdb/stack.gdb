# stack.s
# In a handler with a stack of its own the backtrace goes on at what trapped, and at its callers.
break skip
break *handler
continue
bt
stepi
bt
stepi
bt
continue
bt
finish
bt
print/x $sp
up
print/x $sp
