sum:    LI      a0,0            # Hal: a fault in the first line.
        ret
