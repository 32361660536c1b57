# hello.s
# Nothing is written: the board is the run of its recorded inputs.
print $a0 = 5
set var *(int *) 0x80000000 = 1
jump *0x80000008
print $a0
x/xw 0x80000000
