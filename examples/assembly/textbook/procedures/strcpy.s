# Exercise 4.  Strings of bytes.
#
#    void strcpy (char x[], char y[])
#    {
#        size_t i;
#        i = 0;
#        while ((x[i] = y[i]) != '\0')  /* copy & test byte */
#            i += 1;
#    }
#
# The base addresses of x and y are in x10 and x11, i is in x19.

main:   la   x10, x
        la   x11, y
        jal  x1, strcpy
        la   x10, x
        jal  x1, strlen
        addi x12, x10, 0        # write (1, x, strlen (x))
        la   x11, x
        addi x10, x0, 1
        addi x17, x0, 16
        ecall
        addi x10, x0, 0         # exit (0)
        addi x17, x0, 2
        ecall

strcpy: addi sp, sp, -8         # adjust stack for 1 more item
        sd   x19, 0(sp)         # save x19
        add  x19, x0, x0        # i = 0 + 0
L1:     add  x5, x19, x11       # address of y[i] in x5
        lbu  x6, 0(x5)          # x6 = y[i]
        add  x7, x19, x10       # address of x[i] in x7
        sb   x6, 0(x7)          # x[i] = y[i]
        beq  x6, x0, L2         # if y[i] == 0, go to L2
        addi x19, x19, 1        # i = i + 1
        jal  x0, L1             # go to L1
L2:     ld   x19, 0(sp)         # restore old x19
        addi sp, sp, 8          # pop 1 double word off stack
        jalr x0, 0(x1)          # return

# strlen by a pointer
strlen: addi x5, x10, 0
L3:     lb   x6, 0(x5)
        addi x5, x5, 1
        bne  x6, x0, L3
        sub  x10, x5, x10
        addi x10, x10, -1
        jalr x0, 0(x1)

# The data follow the instructions.
y:      .string "Copied, byte for byte.\n"
x:      .zero 61
