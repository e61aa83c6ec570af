# share: 63 forks, and then 64 processes that count for ever.

            li t0, 63
more:       li a7, 1                # fork
            ecall
            beq a0, zero, count
            blt a0, zero, failed
            addi t0, t0, -1
            bne t0, zero, more
count:      addi t1, t1, 1
            j count
failed:     li a0, 1
            li a7, 2                # exit
            ecall
