# counts.s
# A watch in the handler of an interrupt that comes in the midst of a `next`.
tbreak loop
continue
watch *(int*)&ticks
next 200
bt
finish
info breakpoints
delete
next 200
print *(int*)&total
