# Reads a line from the serial port into a buffer, and sends it back in capital letters. The bytes are in
# line.s.input, each with the step that it comes before: far enough apart that the reading loop takes one
# before the next ones fill the queue.

        .equ    SERIAL,0x10000000
        .equ    RECEIVE,4
        .equ    STATUS,8
        .equ    HALT,0x100000
        .equ    MOST,64                 # the bytes of the buffer, with the zero at the end

        la      sp,stack_top
        la      a0,buffer
        call    read_line
        la      a0,buffer
        call    shout
        li      t0,HALT
        li      t1,0x5555               # halt with code 0
        sw      t1,(t0)

# Reads bytes to the buffer at a0, up to a line feed, and puts a zero after them. Bytes that don't fit are
# dropped.
read_line:
        li      t0,SERIAL
        addi    t1,a0,MOST-1            # where the last zero may stand
1:      lbu     t2,STATUS(t0)           # bit 0: a byte is waiting
        andi    t2,t2,1
        beqz    t2,1b
        lbu     t2,RECEIVE(t0)
        li      t3,'\n'
        beq     t2,t3,2f
        bgeu    a0,t1,1b
        sb      t2,(a0)
        addi    a0,a0,1
        j       1b
2:      sb      zero,(a0)
        ret

# Sends the text at a0 in capital letters, and a line feed.
shout:  li      t0,SERIAL
1:      lbu     t1,(a0)
        beqz    t1,3f
        li      t2,'a'
        bltu    t1,t2,2f
        li      t2,'z'
        bgtu    t1,t2,2f
        addi    t1,t1,'A'-'a'
2:      sb      t1,(t0)
        addi    a0,a0,1
        j       1b
3:      li      t1,'\n'
        sb      t1,(t0)
        ret

buffer: .space  MOST
        .balign 16
        .space  1024
stack_top:
