# pipe: a child writes 512 bytes ROUNDS times into a pipe, from which the parent reads TOTAL bytes.

            la s1, ends             # s1: where the descriptors are
            la s2, bytes            # s2: what is written and read
            li s3, 512
            mv a0, s1
            li a7, 4                # pipe
            ecall
            blt a0, zero, failed
            li a7, 1                # fork
            ecall
            beq a0, zero, child
            blt a0, zero, failed
            lw a0, 4(s1)
            li a7, 21               # close
            ecall
            li s0, TOTAL            # s0: how many bytes are still to come
more:       lw a0, 0(s1)
            mv a1, s2
            mv a2, s3
            li a7, 5                # read
            ecall
            sub s0, s0, a0
            blt zero, a0, more
            bne s0, zero, failed
            j exit                  # a0 is 0: nothing came any more

child:      li s0, ROUNDS
round:      lw a0, 4(s1)
            mv a1, s2
            mv a2, s3
            li a7, 16               # write
            ecall
            bne a0, s3, failed
            addi s0, s0, -1
            bne s0, zero, round
            li a0, 0
            j exit

failed:     li a0, 1
exit:       li a7, 2
            ecall

            .pad 8
ends:       .zero 8
bytes:      .zero 512
