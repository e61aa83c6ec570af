# tight: ROUNDS rounds of six instructions on registers.

            li t0, ROUNDS
round:      addi t1, t1, 3
            xor t2, t2, t1
            slli t3, t1, 1
            add t2, t2, t3
            addi t0, t0, -1
            bne t0, zero, round
            li a0, 0
            li a7, 2                # exit
            ecall
