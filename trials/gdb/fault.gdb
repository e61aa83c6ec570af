set follow-fork-mode child
continue
x/i $pc
print list.last
watch list.last
reverse-continue
backtrace
