# hello.s
# With `target extended-remote` the program can be run again.
target extended-remote | $RVGDB hello.s
continue
run
x/i $pc
kill
