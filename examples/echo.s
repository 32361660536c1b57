# Sends back each byte that comes in at the serial port, and halts after the end of a line. The bytes are in
# echo.s.input, each with the step that it comes before.

        .equ    SERIAL,0x10000000
        .equ    RECEIVE,4
        .equ    STATUS,8
        .equ    HALT,0x100000

        li      s0,SERIAL
wait:   lw      t0,STATUS(s0)           # bit 0: a byte is waiting
        andi    t0,t0,1
        beqz    t0,wait
        lw      a0,RECEIVE(s0)
        sw      a0,(s0)
        li      t0,'\n'
        bne     a0,t0,wait
        li      t0,HALT
        li      t1,0x5555               # halt with code 0
        sw      t1,(t0)
