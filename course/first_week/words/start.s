# words: prints its arguments, a line each
start:      mv s0, a0               # s0: how many there are, with the name
            addi s1, a1, 8          # s1: where the next one's address is
next:       # is one left? print it, and a line end, and go on

            li a0, 0
            li a7, 2                # exit
            ecall
line_end:   .ascii "\n"
