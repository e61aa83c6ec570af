# fork: grows by BYTES bytes, and then makes ROUNDS times a child, which stores to TOUCHED bytes of these, a page apart, and
# ends; and waits for it.

            li a7, 12               # sbrk
            li a0, BYTES
            ecall
            blt a0, zero, failed
            mv s1, a0               # s1: where these bytes start
            li s0, ROUNDS
            li s3, 4096
round:      li a7, 1                # fork
            ecall
            beq a0, zero, child
            blt a0, zero, failed
            mv s2, a0               # s2: the child
            li a7, 3                # wait, which stores no status
            li a0, 0
            ecall
            bne a0, s2, failed
            addi s0, s0, -1
            bne s0, zero, round
            li a0, 0
            j exit

child:      li t0, TOUCHED
next:       beq t0, zero, exit      # a0 is 0
            sb t0, 0(s1)
            add s1, s1, s3
            addi t0, t0, -1
            j next

failed:     li a0, 1
exit:       li a7, 2
            ecall
