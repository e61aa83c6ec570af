/* Exercise 2.  A procedure that calls itself.

     long long int fact (long long int n)
     {
         if (n < 1) return 1;
         else return n * fact (n - 1);
     }

   The argument n is in x10, and so is the result.  */

MAIN:	LI   s0, 0
NEXT:	MV   a0, s0
	JAL  ra, FACT
	JAL  ra, PRINT
	ADDI s0, s0, 5
	LI   t0, 20
	BLE  s0, t0, NEXT
	LI   a0, 0
	LI   a7, 2		/* exit */
	ECALL

FACT:	ADDI sp, sp, -16	/* adjust stack for 2 items */
	SD   x1, 8(sp)		/* save the return address */
	SD   x10, 0(sp)		/* save the argument n */
	ADDI x5, x10, -1	/* x5 = n - 1 */
	BGE  x5, x0, L1		/* if (n - 1) >= 0, go to L1 */
	ADDI x10, x0, 1		/* return 1 */
	ADDI sp, sp, 16		/* pop 2 items off stack */
	JALR x0, 0(x1)		/* return to caller */
L1:	ADDI x10, x10, -1	/* n >= 1: argument gets n - 1 */
	JAL  x1, FACT		/* call fact with n - 1 */
	ADDI x6, x10, 0		/* return from jal: move result of fact (n - 1) to x6 */
	LD   x10, 0(sp)		/* restore argument n */
	LD   x1, 8(sp)		/* restore the return address */
	ADDI sp, sp, 16		/* adjust stack pointer to pop 2 items */
	MUL  x10, x10, x6	/* return n * fact (n - 1) */
	JALR x0, 0(x1)		/* return to the caller */

/* PRINT (a0): in decimal.  It calls itself for all digits but the last.  */
PRINT:	ADDI sp, sp, -16
	SD   ra, 8(sp)
	JAL  ra, DIGITS
	LI   a0, '\n'
	JAL  ra, PUTC
	LD   ra, 8(sp)
	ADDI sp, sp, 16
	RET

DIGITS:	ADDI sp, sp, -16
	SD   ra, 8(sp)
	LI   t0, 10
	REMU t1, a0, t0
	SD   t1, 0(sp)
	DIVU a0, a0, t0
	BEQZ a0, LAST
	JAL  ra, DIGITS
LAST:	LD   a0, 0(sp)
	ADDI a0, a0, '0'
	JAL  ra, PUTC
	LD   ra, 8(sp)
	ADDI sp, sp, 16
	RET

/* PUTC (a0): writes a character, which it keeps on the stack.  */
PUTC:	ADDI sp, sp, -16
	SB   a0, 0(sp)
	LI   a0, 1
	MV   a1, sp
	LI   a2, 1
	LI   a7, 16
	ECALL
	ADDI sp, sp, 16
	RET
