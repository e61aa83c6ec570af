# Exercise 7.  while (save[i] == k) i += 1;
# i and k are in x22 and x24, the base of the array save is in x25.  Then the same with the test at the loop's end.
Main:	addi x22, x0, 0
	addi x24, x0, 7
	la   x25, save
Loop:	slli x10, x22, 3	# Temp reg x10 = i * 8
	add  x10, x10, x25	# x10 = address of save[i]
	ld   x9, 0(x10)		# Temp reg x9 = save[i]
	bne  x9, x24, Exit	# go to Exit if save[i] != k
	addi x22, x22, 1	# i = i + 1
	beq  x0, x0, Loop	# go to Loop
Exit:	addi x23, x22, 0	# what the first found

	addi x22, x0, -1
	addi x10, x25, -8
Again:	addi x22, x22, 1
	addi x10, x10, 8
	ld   x9, 0(x10)
	beq  x9, x24, Again
	bne  x22, x23, Bad

# if (i == j) f = g + h; else f = g - h;
	li   x20, 40		# g
	li   x21, 2		# h
	bne  x22, x23, Else
	add  x19, x20, x21
	beq  x0, x0, EndIf
Else:	sub  x19, x20, x21
EndIf:	addi x5, x0, 42
	bne  x19, x5, Bad

	addi x22, x22, 0x30
	la   x11, text
	sb   x22, 0(x11)
	addi x10, x0, 1
	addi x12, x0, 2
	addi x17, x0, 16
	ecall
	addi x10, x0, 0
	beq  x0, x0, Stop
Bad:	addi x10, x0, 1
Stop:	addi x17, x0, 2
	ecall

	.data
	.align 3
save:	.dword 7, 7, 7, 7, 7, 1, 7
text:	.byte 0, 0x0A
