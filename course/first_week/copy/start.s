# copy FROM TO: copies a file
start:      mv s0, a1               # s0: the arguments' addresses
            ld a0, 8(s0)
            li a1, 0
            li a7, 15               # open
            ecall
            mv s1, a0               # s1: the first file

            li a0, 0
            li a7, 2
            ecall
buffer:     .zero 64
