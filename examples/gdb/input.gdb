# echo.s --input echo.s.input
# Timed inputs come at their steps, whatever gdb does between them, and come again after going back.
break 14
continue
print (char) $a0
continue
print (char) $a0
reverse-continue
print (char) $a0
delete
continue
