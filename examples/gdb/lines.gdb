# hello.s
# Breakpoints by line, label and address; the source, instructions and memory.
break 5
break *0x80000008
info breakpoints
continue
list 3,9
x/3i $pc
continue
x/4xw 0x80000000
info line 7
continue
