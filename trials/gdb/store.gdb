break report
continue
print number
watch kept.counter
reverse-continue
reverse-continue
backtrace
print kept.small
