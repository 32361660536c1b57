# user.s
# User mode: the mode, and a run up to each call.
break user
continue
print $priv
break handler
continue
print $priv
print $mcause
print (char) $a0
delete
continue
