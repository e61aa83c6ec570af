break touch if turn == 100000
continue
print turn
info breakpoints
