# words: prints its arguments, a line each
start:      mv s0, a0               # s0: how many there are, with the name
            addi s1, a1, 8          # s1: where the next one's address is
next:       addi s0, s0, -1
            beq s0, zero, finish
            ld a1, 0(s1)
            addi s1, s1, 8
            mv a2, zero             # a2: its length
measure:    add t0, a1, a2
            lbu t0, 0(t0)
            beq t0, zero, measured
            addi a2, a2, 1
            j measure
measured:   li a0, 1
            li a7, 16
            ecall
            li a0, 1
            la a1, line_end
            li a2, 1
            ecall
            j next
finish:     li a0, 0
            li a7, 2
            ecall
line_end:   .ascii "\n"
