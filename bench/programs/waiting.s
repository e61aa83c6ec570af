# waiting: makes WAITING children, which wait for a typed byte, and then counts for ever.

            li t0, WAITING
more:       beq t0, zero, count
            li a7, 1                # fork
            ecall
            beq a0, zero, child
            blt a0, zero, failed
            addi t0, t0, -1
            j more
count:      addi t1, t1, 1
            j count
child:      li a0, 0
            la a1, byte
            li a2, 1
            li a7, 5                # read
            ecall
failed:     li a0, 1
            li a7, 2                # exit
            ecall

byte:       .zero 1
