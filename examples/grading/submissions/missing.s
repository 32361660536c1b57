# Ida: has the function by another name.
total:  li      a0,0
        ret
