# Reads two numbers and prints their sum, difference, product, quotient and remainder.
	.data
first:	.string	"a = "
second:	.string	"b = "
plus:	.string	"a + b = "
minus:	.string	"a - b = "
times:	.string	"a * b = "
over:	.string	"a / b = "
rest:	.string	"a % b = "
end:	.string	"\n"
buffer:	.space	32

	.text
main:
	la a0, first
	jal ra, print_string
	jal ra, read_int
	mv s0, a0
	la a0, second
	jal ra, print_string
	jal ra, read_int
	mv s1, a0

	la a0, plus
	add a1, s0, s1
	jal ra, print_result
	la a0, minus
	sub a1, s0, s1
	jal ra, print_result
	la a0, times
	mul a1, s0, s1
	jal ra, print_result
	la a0, over
	div a1, s0, s1
	jal ra, print_result
	la a0, rest
	rem a1, s0, s1
	jal ra, print_result
	li a0, 0
	li a7, 2
	ecall

# print_result(text, number)
print_result:
	addi sp, sp, -16
	sd ra, 8(sp)
	sd a1, 0(sp)
	jal ra, print_string
	ld a0, 0(sp)
	jal ra, print_int
	la a0, end
	jal ra, print_string
	ld ra, 8(sp)
	addi sp, sp, 16
	ret

# read_int(): a decimal number, maybe with a sign, from a line
read_int:
	li a0, 0
	la a1, buffer
	li a2, 32
	li a7, 5
	ecall
	la t0, buffer
	li a0, 0
	li t1, 10
	lbu t2, 0(t0)
	li t3, '-'
	sub t4, t2, t3
	seqz t4, t4			# 1 if there is a sign
	add t0, t0, t4
read_digit:
	lbu t2, 0(t0)
	addi t2, t2, -'0'
	bgeu t2, t1, read_end
	mul a0, a0, t1
	add a0, a0, t2
	addi t0, t0, 1
	j read_digit
read_end:
	beqz t4, read_done
	neg a0, a0
read_done:
	ret

print_string:
	mv a1, a0
	li a2, 0
length:	add t0, a1, a2
	lbu t0, 0(t0)
	beqz t0, print
	addi a2, a2, 1
	j length
print:	li a0, 1
	li a7, 16
	ecall
	ret

print_int:
	addi sp, sp, -32
	addi a1, sp, 32
	li t0, 10
	mv t2, a0
	bgez a0, digit
	neg a0, a0
digit:	remu t1, a0, t0
	divu a0, a0, t0
	addi t1, t1, '0'
	addi a1, a1, -1
	sb t1, 0(a1)
	bnez a0, digit
	bgez t2, unsigned
	li t1, '-'
	addi a1, a1, -1
	sb t1, 0(a1)
unsigned:
	addi a2, sp, 32
	sub a2, a2, a1
	li a0, 1
	li a7, 16
	ecall
	addi sp, sp, 32
	ret
