# counts.s
# A store that changes a watched word stops a run, forward and back; so does a step that comes to one.
watch *(int*)&total
continue
continue
info symbol $pc
reverse-continue
info symbol $pc
continue
print $s1
tbreak end
delete 1
continue
watch *(int*)&ticks
reverse-continue
bt
reverse-continue
print *(int*)&ticks
