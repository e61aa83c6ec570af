set follow-fork-mode child
catch exec
continue
break sum_to
continue
backtrace
next
next
next
print sum
reverse-next
print sum
info registers pc a0
