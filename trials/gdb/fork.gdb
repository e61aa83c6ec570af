catch fork
continue
delete 1
set follow-fork-mode child
break count
continue
info inferiors
info threads
backtrace
finish
inferior 1
backtrace
