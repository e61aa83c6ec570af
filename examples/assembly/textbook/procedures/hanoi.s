# Exercise 10.  The towers of Hanoi: a procedure with four arguments that calls itself twice.
#
#       void move (int n, char from, char to, char over)
#       {
#               if (n == 0) return;
#               move (n - 1, from, over, to);
#               printf ("%c%c ", from, to);
#               move (n - 1, over, to, from);
#       }

        li      a0, 3
        li      a1, 'A'
        li      a2, 'C'
        li      a3, 'B'
        call    move
        li      a0, 1
        la      a1, newline
        li      a2, 1
        li      a7, 16
        ecall
        li      a0, 0
        li      a7, 2
        ecall

# The frame, by the frame pointer:
#       fp - 8    return address
#       fp - 16   the caller's fp
#       fp - 24 .. fp - 48   n, from, to, over
move:
        addi    sp, sp, -48
        sd      ra, 40(sp)
        sd      fp, 32(sp)
        addi    fp, sp, 48
        sd      a0, -24(fp)
        sd      a1, -32(fp)
        sd      a2, -40(fp)
        sd      a3, -48(fp)
        beqz    a0, back
        addi    a0, a0, -1
        mv      t0, a2          # the last two change their roles
        mv      a2, a3
        mv      a3, t0
        call    move
        la      a1, step
        ld      t0, -32(fp)
        sb      t0, 0(a1)
        ld      t0, -40(fp)
        sb      t0, 1(a1)
        li      a0, 1
        li      a2, 3
        li      a7, 16
        ecall
        ld      a0, -24(fp)
        addi    a0, a0, -1
        ld      a1, -48(fp)
        ld      a2, -40(fp)
        ld      a3, -32(fp)
        call    move
back:   ld      ra, -8(fp)
        mv      t0, fp
        ld      fp, -16(fp)
        mv      sp, t0
        ret

        .data
step:   .ascii  ".. "
newline:
        .ascii  "\n"
