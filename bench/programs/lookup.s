# lookup: makes PARTS directories, each in the one before, and opens and closes the last one ROUNDS times by its path.

            la s1, path
            la s2, slash            # s2: where the path of the next directory ends
            li s3, PARTS
            li s4, 47               # s4: a slash
make:       sb zero, 0(s2)
            mv a0, s1
            li a7, 20               # mkdir
            ecall
            bne a0, zero, failed
            addi s3, s3, -1
            beq s3, zero, made
            sb s4, 0(s2)
            addi s2, s2, 2
            j make

made:       li s0, ROUNDS
round:      mv a0, s1
            li a1, 0
            li a7, 15               # open
            ecall
            blt a0, zero, failed
            li a7, 21               # close
            ecall
            bne a0, zero, failed
            addi s0, s0, -1
            bne s0, zero, round
            j exit                  # a0 is 0

failed:     li a0, 1
exit:       li a7, 2
            ecall

path:       .ascii "d"
slash:      .ascii "/d/d/d/d/d/d/d/d/d/d/d"
