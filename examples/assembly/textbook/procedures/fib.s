	# Exercise 3: Fibonacci numbers, twice.
	#
	# int fib(int n) { return n < 2 ? n : fib(n - 1) + fib(n - 2); }
	#
	# first as it is defined, then by a loop with two variables; both have to print the same.

	addi	s1, zero, 0		# n
outer:	mv	a0, s1
	call	fib
	mv	s2, a0			# by recursion
	mv	a0, s1
	call	fib_loop
	bne	a0, s2, wrong
	call	print
	addi	s1, s1, 1
	slti	t0, s1, 13
	bnez	t0, outer
	li	a0, '\n'
	call	putchar
	li	a0, 0
	j	exit
wrong:	li	a0, 1
exit:	li	a7, 2
	ecall

fib:	addi	sp, sp, -24
	sd	ra, 16(sp)
	sd	s0, 8(sp)
	sd	s1, 0(sp)
	mv	s0, a0
	li	t0, 2
	blt	s0, t0, done		# fib(0) = 0, fib(1) = 1
	addi	a0, s0, -1
	call	fib
	mv	s1, a0
	addi	a0, s0, -2
	call	fib
	add	a0, a0, s1
done:	ld	s1, 0(sp)
	ld	s0, 8(sp)
	ld	ra, 16(sp)
	addi	sp, sp, 24
	ret

fib_loop:
	li	t0, 0			# fib(i)
	li	t1, 1			# fib(i + 1)
	beqz	a0, 2f
1:	add	t2, t0, t1
	mv	t0, t1
	mv	t1, t2
	addi	a0, a0, -1
	bnez	a0, 1b
2:	mv	a0, t0
	ret

print:	addi	sp, sp, -32		# print(a0): a blank after it
	sd	ra, 24(sp)
	addi	a1, sp, 20
	li	t0, ' '
	sb	t0, 0(a1)
	li	t0, 10
3:	remu	t1, a0, t0
	divu	a0, a0, t0
	addi	t1, t1, '0'
	addi	a1, a1, -1
	sb	t1, (a1)
	bnez	a0, 3b
	addi	a2, sp, 21
	sub	a2, a2, a1
	li	a0, 1
	li	a7, 16
	ecall
	ld	ra, 24(sp)
	addi	sp, sp, 32
	ret

putchar:
	addi	sp, sp, -16
	sb	a0, 15(sp)
	li	a0, 1
	addi	a1, sp, 15
	li	a2, 1
	li	a7, 16
	ecall
	addi	sp, sp, 16
	ret
