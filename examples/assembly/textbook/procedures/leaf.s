# Exercise 1.  A leaf procedure.
#
#   long long int leaf_example (long long int g, long long int h,
#                               long long int i, long long int j)
#   {
#       long long int f;
#       f = (g + h) - (i + j);
#       return f;
#   }
#
# g, h, i and j are in x10 to x13, f is in x20, which the procedure has to save.

main:
	addi x10, x0, 25	# g
	addi x11, x0, 30	# h
	addi x12, x0, 6		# i
	addi x13, x0, 7		# j
	jal  x1, leaf_example
	jal  x1, print		# 42
	addi x10, x0, -1
	addi x11, x0, -2
	addi x12, x0, 3
	addi x13, x0, 4
	jal  x1, leaf_example
	jal  x1, print		# -10
	addi x10, x0, 0
	addi x17, x0, 2		# exit(0)
	ecall

leaf_example:
	addi sp, sp, -24	# room for 3 items
	sd   x5, 16(sp)
	sd   x6, 8(sp)
	sd   x20, 0(sp)
	add  x5, x10, x11	# x5 = g + h
	add  x6, x12, x13	# x6 = i + j
	sub  x20, x5, x6	# f = x5 - x6
	addi x10, x20, 0	# returns f
	ld   x20, 0(sp)
	ld   x6, 8(sp)
	ld   x5, 16(sp)
	addi sp, sp, 24
	jalr x0, 0(x1)		# back to the caller

# print (x10): the number in decimal, and the line's end.  The digits are made on the stack, from the last to the first.
print:
	addi sp, sp, -32
	addi x11, sp, 31
	addi x5, x0, 10
	sb   x5, 0(x11)
	addi x7, x10, 0		# x7 says whether a sign is needed
	bge  x10, x0, digit
	sub  x10, x0, x10
digit:
	rem  x6, x10, x5
	div  x10, x10, x5
	addi x6, x6, 48
	addi x11, x11, -1
	sb   x6, 0(x11)
	bne  x10, x0, digit
	bge  x7, x0, put
	addi x6, x0, 45		# '-'
	addi x11, x11, -1
	sb   x6, 0(x11)
put:
	addi x12, sp, 32
	sub  x12, x12, x11
	addi x10, x0, 1		# write(1, x11, x12)
	addi x17, x0, 16
	ecall
	addi sp, sp, 32
	jalr x0, 0(x1)
