# no_stack.s
# A trap without a handler is told as a signal at its line, with why; the run can't go on past it.
continue
x/i $pc
print $sp
continue
