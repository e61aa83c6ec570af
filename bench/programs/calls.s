# calls: makes one kind of calls ROUNDS times, that at the label WHICH, on 16 bytes each.

            la s1, ends             # s1: where the descriptors are
            la s2, bytes            # s2: what is written and read
            li s3, 16
            li s0, ROUNDS
            j WHICH

getpids:    li a7, 11               # getpid
            ecall
            addi s0, s0, -1
            bne s0, zero, getpids
            j done

prints:     li a0, 1
            mv a1, s2
            mv a2, s3
            li a7, 16               # write
            ecall
            bne a0, s3, failed
            addi s0, s0, -1
            bne s0, zero, prints
            j done

pipes:      mv a0, s1
            li a7, 4                # pipe
            ecall
            blt a0, zero, failed
through:    lw a0, 4(s1)
            mv a1, s2
            mv a2, s3
            li a7, 16               # write
            ecall
            bne a0, s3, failed
            lw a0, 0(s1)
            li a7, 5                # read
            ecall
            bne a0, s3, failed
            addi s0, s0, -1
            bne s0, zero, through
            j done

writes:     la a0, name
            li a1, 0x202            # made where it isn't there, to read and to write
            li a7, 15               # open
            ecall
            mv s4, a0
            blt s4, zero, failed
written:    mv a0, s4
            mv a1, s2
            mv a2, s3
            li a7, 16               # write
            ecall
            bne a0, s3, failed
            addi s0, s0, -1
            bne s0, zero, written
            j done

pairs:      la a0, name
            li a1, 0x202
            li a7, 15               # open: once to write, once to read
            ecall
            mv s4, a0
            blt s4, zero, failed
            la a0, name
            li a1, 0
            ecall
            mv s5, a0
            blt s5, zero, failed
paired:     mv a0, s4
            mv a1, s2
            mv a2, s3
            li a7, 16               # write
            ecall
            bne a0, s3, failed
            mv a0, s5
            li a7, 5                # read
            ecall
            bne a0, s3, failed
            addi s0, s0, -1
            bne s0, zero, paired

done:       li a0, 0
            j exit
failed:     li a0, 1
exit:       li a7, 2
            ecall

name:       .ascii "f\0"
            .pad 8
ends:       .zero 8
bytes:      .ascii "fifteen letters\n"
