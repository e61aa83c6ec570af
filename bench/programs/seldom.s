# seldom: makes CALLS calls of getpid, each after ROUNDS rounds of two instructions.

            li s0, CALLS
next:       li t0, ROUNDS
round:      addi t0, t0, -1
            bne t0, zero, round
            li a7, 11               # getpid
            ecall
            addi s0, s0, -1
            bne s0, zero, next
            li a0, 0
            li a7, 2                # exit
            ecall
