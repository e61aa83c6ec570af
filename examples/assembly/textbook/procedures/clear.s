# Exercise 6.  Arrays versus pointers: clear1 uses an index, clear2 a pointer.
# Which of the two has fewer instructions in its loop?  The program counts how many bytes are left that are not 0.

		la	x10, array
		li	x11, 20
		jal	ra, clear1
		la	x10, array + 160
		li	x11, 19			# one less: the last element stays
		jal	ra, clear2

		la	t0, array
		la	t1, end
		li	t2, 0
count:		bgeu	t0, t1, shown
		lbu	t3, 0(t0)
		snez	t3, t3
		add	t2, t2, t3
		addi	t0, t0, 1
		j	count
shown:		addi	t2, t2, 48
		la	a1, answer
		sb	t2, 0(a1)
		li	a0, 1
		li	a2, 2
		li	a7, 16
		ecall
		li	a0, 0
		li	a7, 2
		ecall

clear1:		li	x5, 0			# i = 0
loop1:		slli	x6, x5, 3		# x6 = i * 8
		add	x7, x10, x6		# x7 = address of array[i]
		sd	x0, 0(x7)		# array[i] = 0
		addi	x5, x5, 1		# i = i + 1
		blt	x5, x11, loop1		# if (i < size) go to loop1
		jalr	x0, 0(x1)

clear2:		mv	x5, x10			# p = address of array[0]
		slli	x6, x11, 3		# x6 = size * 8
		add	x7, x10, x6		# x7 = address of array[size]
loop2:		sd	x0, 0(x5)		# Memory[p] = 0
		addi	x5, x5, 8		# p = p + 8
		bltu	x5, x7, loop2		# if (p < &array[size]) go to loop2
		jalr	x0, 0(x1)

		.data
		.balign	8
array:		.rept	40
		.dword	0x0101010101010101
		.endr
end:
answer:		.ascii	"?\n"
