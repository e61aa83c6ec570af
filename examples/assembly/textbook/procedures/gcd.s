# Exercise 9.  The greatest common divisor: by subtraction, by remainders, by a procedure that ends with a call of itself.
# Compare how many instructions each takes.

start:		la	s0, pairs
next:		ld	a0, 0(s0)
		ld	a1, 8(s0)
		beqz	a0, stop
		jal	gcd_by_subtraction
		mv	s1, a0
		ld	a0, 0(s0)
		ld	a1, 8(s0)
		jal	gcd_by_remainder
		bne	a0, s1, failed
		ld	a0, 0(s0)
		ld	a1, 8(s0)
		jal	gcd_by_itself
		bne	a0, s1, failed
		jal	print
		addi	s0, s0, 16
		j	next
failed:		li	a0, 1
		j	out
stop:		li	a0, 0
out:		li	a7, 2
		ecall

gcd_by_subtraction:
		beq	a0, a1, 2f
		bltu	a0, a1, 1f
		sub	a0, a0, a1
		j	gcd_by_subtraction
1:		sub	a1, a1, a0
		j	gcd_by_subtraction
2:		ret

gcd_by_remainder:
1:		beqz	a1, 2f
		remu	t0, a0, a1
		mv	a0, a1
		mv	a1, t0
		j	1b
2:		ret

gcd_by_itself:
		bnez	a1, 1f
		ret
1:		remu	t0, a0, a1
		mv	a0, a1
		mv	a1, t0
		tail	gcd_by_itself

print:		addi	sp, sp, -16
		addi	a1, sp, 15
		li	t0, '\n'
		sb	t0, 0(a1)
		li	t1, 10
1:		remu	t0, a0, t1
		addi	a1, a1, -1
		addi	t0, t0, '0'
		sb	t0, 0(a1)
		divu	a0, a0, t1
		bgtz	a0, 1b
		addi	a2, sp, 16
		sub	a2, a2, a1
		li	a0, 1
		li	a7, 16
		ecall
		addi	sp, sp, 16
		ret

		.data
		.align	3
pairs:		.dword	12, 18
		.dword	1071, 462
		.dword	17, 5
		.dword	1000, 250
		.dword	0, 0
