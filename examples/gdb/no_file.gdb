# hello.s
# No file is named: gdb reads the program's over the link.
info files
list 7
break 9
continue
