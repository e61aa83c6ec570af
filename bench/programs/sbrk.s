# sbrk: grows by BEFORE bytes, and then ROUNDS times by BYTES bytes and back again.

            li s0, ROUNDS
            li s1, BYTES
            sub s2, zero, s1
            li a7, 12               # sbrk
            li a0, BEFORE
            ecall
            blt a0, zero, failed
round:      mv a0, s1
            ecall
            blt a0, zero, failed
            mv a0, s2
            ecall
            blt a0, zero, failed
            addi s0, s0, -1
            bne s0, zero, round
            li a0, 0
            j exit
failed:     li a0, 1
exit:       li a7, 2
            ecall
