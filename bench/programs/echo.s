# echo: reads lines from the console and writes them, until the input ends.

            la s0, line
more:       li a0, 0
            mv a1, s0
            li a2, 128
            li a7, 5                # read
            ecall
            beq a0, zero, exit
            blt a0, zero, failed
            mv a2, a0
            mv a1, s0
            li a0, 1
            li a7, 16               # write
            ecall
            j more
failed:     li a0, 1
exit:       li a7, 2
            ecall

line:       .zero 128
