# copy FROM TO: copies a file
start:      mv s0, a1               # s0: the arguments' addresses
            ld a0, 8(s0)
            li a1, 0
            li a7, 15
            ecall
            blt a0, zero, fail
            mv s1, a0               # s1: the first file
            ld a0, 16(s0)
            li a1, 0x601            # to write; made and emptied
            ecall
            blt a0, zero, fail
            mv s2, a0               # s2: the second one
again:      mv a0, s1
            la a1, buffer
            li a2, 64
            li a7, 5
            ecall
            bge zero, a0, finish
            mv a2, a0
            mv a0, s2
            li a7, 16
            ecall
            j again
fail:       li a0, 1
            li a7, 2
            ecall
finish:     li a0, 0
            li a7, 2
            ecall
buffer:     .zero 64
