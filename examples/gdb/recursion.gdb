# recursion.s
# The frames of a recursion: each call has its own registers.
break fib if $a0 == 1
continue
continue
continue
bt
frame 2
info registers ra sp
info frame
up
delete
tbreak put
continue
bt
finish
