# counts.s
# Loads, and accesses of either kind, of several ranges at once.
rwatch *(int*)&total
continue
continue
awatch *(char*)&ticks
delete 1
continue
info symbol $pc
continue
info symbol $pc
delete
rwatch *(int*)0x200bff8
continue
info symbol $pc
reverse-continue
