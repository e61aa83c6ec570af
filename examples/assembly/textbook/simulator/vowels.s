# Counts the vowels of a string, and turns its letters into large ones.
	.data
text:	.asciz	"The quick brown fox jumps over the lazy dog."
vowels:	.asciz	"aeiouAEIOU"
message:
	.asciz	" vowels\n"
newline:
	.asciz	"\n"
	.text
	j	main

# is_vowel: a0 = 1 if the character in a0 is a vowel, else 0
is_vowel:
	la	t0, vowels
is_vowel_loop:
	lb	t1, 0(t0)
	beqz	t1, is_vowel_no
	beq	t1, a0, is_vowel_yes
	addi	t0, t0, 1
	j	is_vowel_loop
is_vowel_yes:
	li	a0, 1
	ret
is_vowel_no:
	li	a0, 0
	ret

# upper: a0 = the large letter of a small one; other characters stay
upper:
	li	t0, 'a'
	blt	a0, t0, upper_done
	li	t0, 'z'
	bgt	a0, t0, upper_done
	addi	a0, a0, 'A' - 'a'
upper_done:
	ret

main:
	la	s0, text
	li	s1, 0
count:
	lb	a0, 0(s0)
	beqz	a0, counted
	jal	is_vowel
	add	s1, s1, a0
	lb	a0, 0(s0)
	jal	upper
	sb	a0, 0(s0)
	addi	s0, s0, 1
	j	count
counted:
	mv	a0, s1
	jal	print_int
	la	a0, message
	jal	print_string
	la	a0, text
	jal	print_string
	la	a0, newline
	jal	print_string
	li	a0, 0
	li	a7, 2
	ecall

print_string:
	mv	a1, a0
	li	a2, 0
print_string_length:
	add	t0, a1, a2
	lb	t0, 0(t0)
	beqz	t0, print_string_out
	addi	a2, a2, 1
	j	print_string_length
print_string_out:
	li	a0, 1
	li	a7, 16
	ecall
	ret

print_int:
	addi	sp, sp, -16
	li	t0, 10
	divu	t1, a0, t0
	remu	t2, a0, t0
	addi	t1, t1, '0'
	addi	t2, t2, '0'
	sb	t1, 0(sp)
	sb	t2, 1(sp)
	li	a0, 1
	mv	a1, sp
	li	a2, 2
	li	a7, 16
	ecall
	addi	sp, sp, 16
	ret
