set follow-fork-mode child
monitor stop-at event 200
continue
monitor when
monitor stop-at event 100
reverse-continue
monitor when
stepi
monitor when
reverse-stepi
monitor when
monitor stop-at call write
continue
x/i $pc
info registers a7
monitor ps
reverse-continue
monitor stop-at exit off
delete
continue
