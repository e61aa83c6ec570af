set follow-fork-mode child
continue
monitor stop-at output counted 112
reverse-continue
monitor when
x/i $pc
x/1c $a1
backtrace
monitor stop-at output counted
reverse-continue
x/s $a1
backtrace
monitor stop-at output
continue
