set follow-fork-mode child
continue
monitor stop-at call write
reverse-continue
x/1c $a1
reverse-continue
x/3c $a1
backtrace
up 3
print kept.counter
