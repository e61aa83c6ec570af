monitor stop-at call write
continue
continue
x/1cb $a1
continue
continue
inferior 1
continue
x/1cb $a1
monitor stop-at call read
reverse-continue
reverse-continue
backtrace
monitor ps
