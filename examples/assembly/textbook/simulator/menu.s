# A menu: a digit is read, and a table of addresses leads to what it asks for.
.data
.align 3
table:	.dword	quit, add_one, double, square
prompt:	.asciz	"0 quit, 1 add one, 2 double, 3 square\n"
wrong:	.asciz	"?\n"
buffer:	.space	16
	.align	2
value:	.word	5

.text
.globl main
main:
	la	a0, prompt
	jal	print_string
loop:
	jal	read_char			# a0: the digit
	addi	a0, a0, -'0'
	li	t0, 3
	bgtu	a0, t0, not_there
	slli	a0, a0, 3
	la	t0, table
	add	t0, t0, a0
	ld	t0, 0(t0)
	lw	s0, value
	jr	t0

add_one:
	addi	s0, s0, 1
	j	show
double:
	slli	s0, s0, 1
	j	show
square:
	mul	s0, s0, s0
show:
	la	t0, value
	sw	s0, 0(t0)
	mv	a0, s0
	jal	print_int
	j	loop
not_there:
	la	a0, wrong
	jal	print_string
	j	loop
quit:
	li	a0, 0
	li	a7, 2
	ecall

read_char:					# the first character of the next line
	li	a0, 0
	la	a1, buffer
	li	a2, 16
	li	a7, 5
	ecall
	blez	a0, quit
	lbu	a0, buffer
	ret

print_string:
	mv	a1, a0
	mv	a2, zero
1:	add	t0, a1, a2
	lb	t0, 0(t0)
	beq	t0, zero, 2f
	addi	a2, a2, 1
	jal	zero, 1b
2:	li	a0, 1
	li	a7, 16
	ecall
	ret

print_int:
	addi	sp, sp, -32
	addi	a1, sp, 31
	li	t0, '\n'
	sb	t0, 0(a1)
	li	t0, 10
1:	remu	t1, a0, t0
	divu	a0, a0, t0
	addi	t1, t1, '0'
	addi	a1, a1, -1
	sb	t1, 0(a1)
	bne	a0, zero, 1b
	addi	a2, sp, 32
	sub	a2, a2, a1
	li	a0, 1
	li	a7, 16
	ecall
	addi	sp, sp, 32
	ret
