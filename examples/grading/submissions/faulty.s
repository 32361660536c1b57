# Di: the language has no semicolon.
sum:    li      a0,0;
        ret
