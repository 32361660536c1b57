# counts.s
# A condition of a watch is gdb's: it is asked at each store.
watch *(int*)&total if *(int*)&total > 60
continue
print $s1
reverse-continue
delete
break 18 if $s1 == 50
continue
print *(int*)&total
reverse-continue
