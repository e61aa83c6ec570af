# printf for %d, %x, %c, %s and %%: the arguments come in a1 to a7, and lie on the stack as an array while it runs.
	.file	"format.s"
	.option	nopic
	.attribute stack_align, 16
	.text
	.align	2
	.globl	_start
	.type	_start, @function
_start:
	la	a0, first
	li	a1, -42
	la	a2, word
	li	a3, 0xBEEF
	li	a4, '!'
	call	printf
	la	a0, second
	li	a1, 0
	li	a2, 0x7FFFFFFFFFFFFFFF
	call	printf
	li	a0, 0
	li	a7, 2
	ecall
	.size	_start, .-_start

	.align	2
	.globl	printf
	.type	printf, @function
printf:
	.cfi_startproc
	addi	sp, sp, -96
	.cfi_def_cfa_offset 96
	sd	ra, 24(sp)
	.cfi_offset 1, -72
	sd	s0, 16(sp)
	sd	s1, 8(sp)
	sd	a1, 40(sp)
	sd	a2, 48(sp)
	sd	a3, 56(sp)
	sd	a4, 64(sp)
	sd	a5, 72(sp)
	sd	a6, 80(sp)
	sd	a7, 88(sp)
	mv	s0, a0
	addi	s1, sp, 40
.Lnext:
	lbu	a0, 0(s0)
	addi	s0, s0, 1
	beqz	a0, .Lreturn
	li	t0, '%'
	beq	a0, t0, .Lform
.Lcopy:
	call	putchar
	j	.Lnext
.Lform:
	lbu	a0, 0(s0)
	addi	s0, s0, 1
	li	t0, '%'
	beq	a0, t0, .Lcopy
	ld	t1, 0(s1)
	addi	s1, s1, 8
	li	t0, 'd'
	beq	a0, t0, .Ldecimal
	li	t0, 'x'
	beq	a0, t0, .Lhexadecimal
	li	t0, 's'
	beq	a0, t0, .Lstring
	mv	a0, t1
	j	.Lcopy
.Ldecimal:
	mv	a0, t1
	bgez	a0, .Lpositive
	li	a0, '-'
	sd	t1, 0(sp)
	call	putchar
	ld	t1, 0(sp)
	neg	a0, t1
.Lpositive:
	li	a1, 10
	call	putnumber
	j	.Lnext
.Lhexadecimal:
	mv	a0, t1
	li	a1, 16
	call	putnumber
	j	.Lnext
.Lstring:
	lbu	a0, 0(t1)
	beqz	a0, .Lnext
	addi	t1, t1, 1
	sd	t1, 0(sp)
	call	putchar
	ld	t1, 0(sp)
	j	.Lstring
.Lreturn:
	ld	s1, 8(sp)
	ld	s0, 16(sp)
	ld	ra, 24(sp)
	addi	sp, sp, 96
	ret
	.cfi_endproc
	.size	printf, .-printf

	.type	putnumber, @function
putnumber:					# (number, base)
	addi	sp, sp, -32
	sd	ra, 24(sp)
	remu	t0, a0, a1
	sd	t0, 8(sp)
	divu	a0, a0, a1
	beqz	a0, 1f
	call	putnumber@plt
1:	ld	t0, 8(sp)
	lla	t1, digits
	add	t0, t0, t1
	lbu	a0, 0(t0)
	call	putchar
	ld	ra, 24(sp)
	addi	sp, sp, 32
	ret
	.size	putnumber, .-putnumber

	.type	putchar, @function
putchar:
	addi	sp, sp, -16
	sd	a1, 0(sp)
	sb	a0, 8(sp)
	li	a0, 1
	addi	a1, sp, 8
	li	a2, 1
	li	a7, 16
	ecall
	ld	a1, 0(sp)
	addi	sp, sp, 16
	ret
	.size	putchar, .-putchar

	.section	.rodata
digits:	.ascii	"0123456789abcdef"
first:	.string	"%d is %s %x%c\n"
second:	.string	"100%% of %d, up to %d\n"
word:	.string	"the answer,"
	.ident	"by hand"
	.section	.note.GNU-stack,"",@progbits
