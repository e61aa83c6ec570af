# Exercise 8.  The switch statement by a branch address table.
#
#   switch (k) {
#       case 0: f = i + j; break;
#       case 1: f = g + h; break;
#       case 2: f = g - h; break;
#       case 3: f = i - j; break;
#   }
#
# f is in x19, g, h, i, j are in x20 to x23, k is in x24, the address of the table is in x25.
	li   x20, 60
	li   x21, 18
	li   x22, 30
	li   x23, 25
	la   x25, JumpTable
	li   x24, -1
Each:	jal  x1, Switch
	mv   x10, x19
	jal  x1, Print
	addi x24, x24, 1
	li   x5, 4
	ble  x24, x5, Each
	li   x10, 0
	li   x17, 2
	ecall

Switch:	li   x19, 0
	blt  x24, x0, Exit	# test if k < 0
	li   x5, 4
	bge  x24, x5, Exit	# test if k >= 4
	slli x7, x24, 3		# x7 = 8 * k
	add  x7, x7, x25	# x7 = address of JumpTable[k]
	ld   x7, 0(x7)		# x7 = JumpTable[k]
	jalr x0, 0(x7)		# jump to it
L0:	add  x19, x22, x23	# k = 0: f gets i + j
	j    Exit
L1:	add  x19, x20, x21	# k = 1
	j    Exit
L2:	sub  x19, x20, x21	# k = 2
	j    Exit
L3:	sub  x19, x22, x23	# k = 3
Exit:	jr   x1

# Print (x10): two digits
Print:	li   x5, 10
	div  x6, x10, x5
	rem  x7, x10, x5
	addi x6, x6, '0'
	addi x7, x7, '0'
	la   x11, Number
	sb   x6, 0(x11)
	sb   x7, 1(x11)
	li   x10, 1
	li   x12, 3
	li   x17, 16
	ecall
	ret

	.data
	.align 3
JumpTable:
	.dword L0, L1, L2, L3
Number:	.ascii "..\n"
