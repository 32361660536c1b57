# timer.s
# `next` passes over an interrupt's handler, which comes every hundred steps; `stepi` goes into it.
tbreak 17
continue
next 150
info symbol $pc
print $s0
tbreak tick
continue
reverse-stepi
stepi
info symbol $pc
