# clash: ROUNDS times calls two functions in turn, which lie at the same offset of two pages; GAP bytes are between these pages.

            li s0, ROUNDS
            li s2, 0
round:      jal ra, one
            jal ra, other
            addi s0, s0, -1
            bne s0, zero, round
            li a0, 0
            li t0, ROUNDS
            slli t0, t0, 5          # each call adds 16
            beq s2, t0, exit
            li a0, 1
exit:       li a7, 2                # exit
            ecall

            .pad 4096
one:        addi s2, s2, 1
            addi s2, s2, 1
            addi s2, s2, 1
            addi s2, s2, 1
            addi s2, s2, 1
            addi s2, s2, 1
            addi s2, s2, 1
            addi s2, s2, 1
            addi s2, s2, 1
            addi s2, s2, 1
            addi s2, s2, 1
            addi s2, s2, 1
            addi s2, s2, 1
            addi s2, s2, 1
            addi s2, s2, 1
            addi s2, s2, 1
            ret
            .pad 4096
            .zero GAP
other:      addi s2, s2, 1
            addi s2, s2, 1
            addi s2, s2, 1
            addi s2, s2, 1
            addi s2, s2, 1
            addi s2, s2, 1
            addi s2, s2, 1
            addi s2, s2, 1
            addi s2, s2, 1
            addi s2, s2, 1
            addi s2, s2, 1
            addi s2, s2, 1
            addi s2, s2, 1
            addi s2, s2, 1
            addi s2, s2, 1
            addi s2, s2, 1
            ret
