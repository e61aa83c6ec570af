set follow-fork-mode child
break report
continue
monitor when
set var kept.counter = 5
print report(1)
set var $a0 = 1
print kept.counter
run
monitor when
continue
monitor when
