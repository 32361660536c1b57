"""Makes readable sources of the board's assembler from linked programs: the parts of elf2s, cc and rvrun."""
