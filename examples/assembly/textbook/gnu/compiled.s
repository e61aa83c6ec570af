	.file	"sum.c"
	.option nopic
	.attribute unaligned_access, 0
	.attribute stack_align, 16
	.text
	.globl	_start
	.align	2
	.type	_start, @function
_start:
.LFB0:
	.cfi_startproc
	addi	sp,sp,-32
	.cfi_def_cfa_offset 32
	sd	ra,24(sp)
	sd	s0,16(sp)
	addi	s0,sp,32
	.cfi_def_cfa 8, 0
	lui	a5,%hi(values)
	addi	a0,a5,%lo(values)
	li	a1,5
	call	sum
	mv	a5,a0
	sw	a5,-20(s0)
	lw	a4,-20(s0)
	li	a5,99
	bgt	a4,a5,.L2
	lw	a0,-20(s0)
	call	put
	j	.L3
.L2:
	li	a0,-1
	call	put
.L3:
	lla	a5,total
	lw	a4,-20(s0)
	sw	a4,0(a5)
	li	a0,0
	li	a7,2
	ecall
	.cfi_endproc
.LFE0:
	.size	_start, .-_start
	.align	2
	.type	sum, @function
sum:
	addi	sp,sp,-48
	sd	s0,40(sp)
	addi	s0,sp,48
	sd	a0,-40(s0)
	mv	a5,a1
	sw	a5,-44(s0)
	sw	zero,-20(s0)
	sw	zero,-24(s0)
	j	.L5
.L6:
	lw	a5,-24(s0)
	slli	a5,a5,2
	ld	a4,-40(s0)
	add	a5,a4,a5
	lw	a5,0(a5)
	lw	a4,-20(s0)
	addw	a5,a4,a5
	sw	a5,-20(s0)
	lw	a5,-24(s0)
	addiw	a5,a5,1
	sw	a5,-24(s0)
.L5:
	lw	a5,-24(s0)
	mv	a4,a5
	lw	a5,-44(s0)
	sext.w	a4,a4
	sext.w	a5,a5
	blt	a4,a5,.L6
	lw	a5,-20(s0)
	mv	a0,a5
	ld	s0,40(sp)
	addi	sp,sp,48
	jr	ra
	.size	sum, .-sum
	.align	2
	.type	put, @function
put:
	li	a5,10
	remw	a4,a0,a5
	divw	a3,a0,a5
.LPC1:	auipc	a1,%pcrel_hi(.LANCHOR0)
	addi	a1,a1,%pcrel_lo(.LPC1)
	addiw	a3,a3,48
	addiw	a4,a4,48
	sb	a3,0(a1)
	sb	a4,1(a1)
	li	a0,1
	li	a2,3
	li	a7,16
	ecall
	ret
	.size	put, .-put
	.section	.rodata.cst4,"aM",@progbits,4
	.align	2
	.type	values, @object
	.size	values, 20
values:
	.word	11
	.word	7
	.word	5
	.word	17
	.word	2
	.data
	.set	.LANCHOR0,. + 0
	.type	shown, @object
	.size	shown, 3
shown:
	.ascii	"--\n"
	.local	total
	.comm	total,4,4
	.ident	"GCC: (GNU) by hand"
