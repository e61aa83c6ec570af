set follow-fork-mode child
break report
continue
delete 1
rwatch kept.counter
reverse-continue
x/2i $pc
reverse-continue
delete 2
awatch kept.small[1]
reverse-continue
backtrace
monitor when
delete
continue
