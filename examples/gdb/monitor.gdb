# trap.s
# Lines of the lab that look; those that move are refused.
break handler
continue
monitor where
monitor why
monitor p mcause
monitor i 0x80000000
monitor s
monitor rx 41
info registers pc
