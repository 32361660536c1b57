# hello.s --pages 1
# Memory ends where the board's does.
x/2xw 0x80000ff8
x/2xw 0x80001000
x/xb 0x7fffffff
