# Prints words in hexadecimal, by shifts, and in binary, by a mask.
	.data
numbers: .int 0xDEADBEEF, 0x00C0FFEE, 255, -1
count:	.word 4
digits:	.ascii "0123456789ABCDEF"
line:	.space 11			# 0x, eight digits and the line's end
bits:	.space 33

	.text
main:
	la	s0, numbers
	lw	s1, count
main_loop:
	lwu	a0, 0(s0)
	jal	print_hex
	addi	s0, s0, 4
	addi	s1, s1, -1
	bnez	s1, main_loop
	li	a0, 0xA5
	jal	print_binary
	li	a7, 2
	li	a0, 0
	ecall

print_hex:
	la	t0, line
	li	t1, '0'
	sb	t1, 0(t0)
	li	t1, 'x'
	sb	t1, 1(t0)
	addi	t0, t0, 2
	la	t2, digits
	li	t3, 28				# how far to shift
hex_loop:
	srl	t4, a0, t3
	andi	t4, t4, 0xF
	add	t4, t4, t2
	lbu	t4, 0(t4)
	sb	t4, 0(t0)
	addi	t0, t0, 1
	addi	t3, t3, -4
	bgez	t3, hex_loop
	li	t1, 0x0a
	sb	t1, 0(t0)
	li	a0, 1
	la	a1, line
	li	a2, 11
	li	a7, 16
	ecall
	ret

print_binary:
	la	t0, bits
	li	t1, 1
	slli	t1, t1, 31			# the mask
binary_loop:
	and	t2, a0, t1
	snez	t2, t2
	ori	t2, t2, '0'
	sb	t2, (t0)
	addi	t0, t0, 1
	srli	t1, t1, 1
	bnez	t1, binary_loop
	li	t2, '\n'
	sb	t2, (t0)
	li	a0, 1
	la	a1, bits
	li	a2, 33
	li	a7, 16
	ecall
	ret
