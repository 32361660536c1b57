# It has a fault: nobody sets ra, so its return jumps to 0, where there is no memory and no handler.

        li      a0,1
        ret
