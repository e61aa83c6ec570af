# echo WORD..: writes its arguments with blanks between them, and a line end, in one write.
#
# At the start a0 is the number of arguments, the program's name among them, and a1 the address of the list of their
# addresses, which ends with a 0. `jal ra, NAME` calls a function or the kernel: both take a0, a1, .. and return in a0,
# the kernel -1 for a refusal; `ret` returns. A function keeps sp and s0 to s11, a call all registers except a0 and a7.

start:      addi s0, a1, 8          # s0: where the next argument's address is, after that of the program's name
            mv s1, s0               # s1: where the first one's is
            la s2, line             # s2: where the next byte goes

next:       ld t0, 0(s0)            # t0: the argument
            beq t0, zero, finish    # there are no more
            beq s0, s1, copy
            li t2, 32               # a blank before each but the first
            sb t2, 0(s2)
            addi s2, s2, 1

copy:       lbu t2, 0(t0)           # its bytes, up to the 0
            beq t2, zero, copied
            sb t2, 0(s2)
            addi t0, t0, 1
            addi s2, s2, 1
            j copy
copied:     addi s0, s0, 8          # the next argument
            j next

finish:     li t2, 10               # the line end
            sb t2, 0(s2)
            addi s2, s2, 1
            li a0, 1                # all of the line at once
            la a1, line
            sub a2, s2, a1
            jal ra, write
            li a0, 0                # whatever came of it
            jal ra, exit

# ---- calls of the kernel: the number goes into a7

exit:       li a7, 2
            ecall
write:      li a7, 16
            ecall
            ret

# ---- data

line:       .zero 4096              # all arguments lie in the stack's page, so they make no longer line
