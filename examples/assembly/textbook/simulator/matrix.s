# C = A * B for matrices of N times N words, by rows.
	.data
	.equ	N, 3
A:	.word	1, 2, 3
	.word	4, 5, 6
	.word	7, 8, 9
B:	.word	 9,  8,  7
	.word	 6,  5,  4
	.word	 3,  2,  1
C:	.space	4 * N * N

	.text
	.globl	main
main:
	la	a0, A
	la	a1, B
	la	a2, C
	jal	ra, multiply
	la	s0, C
	li	s1, N			# rows
row:
	li	s2, N			# columns
column:
	lw	a0, 0(s0)
	jal	ra, print_number
	addi	s0, s0, 4
	addi	s2, s2, -1
	li	a0, '\t'
	bnez	s2, 1f
	li	a0, '\n'
1:	jal	ra, print_char
	bnez	s2, column
	addi	s1, s1, -1
	bnez	s1, row
	li	a0, 0
	li	a7, 2
	ecall

multiply:
	li	t0, 0			# i
for_i:	li	t1, 0			# j
for_j:	li	t2, 0			# k
	li	t6, 0			# the sum
for_k:
	li	t3, N			# A[i][k]
	mul	t3, t3, t0
	add	t3, t3, t2
	slli	t3, t3, 2
	add	t3, t3, a0
	lw	t4, 0(t3)
	li	t3, N			# B[k][j]
	mul	t3, t3, t2
	add	t3, t3, t1
	slli	t3, t3, 2
	add	t3, t3, a1
	lw	t5, 0(t3)
	mulw	t4, t4, t5
	addw	t6, t6, t4
	addi	t2, t2, 1
	li	t3, N
	blt	t2, t3, for_k
	mul	t3, t3, t0		# C[i][j]
	add	t3, t3, t1
	slli	t3, t3, 2
	add	t3, t3, a2
	sw	t6, 0(t3)
	addi	t1, t1, 1
	li	t3, N
	blt	t1, t3, for_j
	addi	t0, t0, 1
	blt	t0, t3, for_i
	jr	ra

print_number:				# a0, which is not negative
	addi	sp, sp, -16
	sd	ra, 8(sp)
	li	t0, 10
	rem	t1, a0, t0
	sw	t1, 0(sp)
	div	a0, a0, t0
	beqz	a0, 1f
	jal	ra, print_number
1:	lw	a0, 0(sp)
	addi	a0, a0, '0'
	jal	ra, print_char
	ld	ra, 8(sp)
	addi	sp, sp, 16
	jr	ra

print_char:
	addi	sp, sp, -16
	sb	a0, 0(sp)
	li	a0, 1
	mv	a1, sp
	li	a2, 1
	li	a7, 16
	ecall
	addi	sp, sp, 16
	jr	ra
