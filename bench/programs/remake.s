# remake: ROUNDS times makes a file, closes it and unlinks it.

            li s0, ROUNDS
            la s1, name
round:      mv a0, s1
            li a1, 0x202            # to read and write, made
            li a7, 15               # open
            ecall
            blt a0, zero, failed
            li a7, 21               # close
            ecall
            bne a0, zero, failed
            mv a0, s1
            li a7, 18               # unlink
            ecall
            bne a0, zero, failed
            addi s0, s0, -1
            bne s0, zero, round
            mv a0, s1
            li a1, 0                # the file is gone: it can't be opened
            li a7, 15
            ecall
            bge a0, zero, failed
            li a0, 0
            j exit
failed:     li a0, 1
exit:       li a7, 2
            ecall

name:       .ascii "file\0"
