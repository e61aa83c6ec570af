# pass: sends its input through a pipe to a child, which writes it
start:      la a0, ends
            li a7, 4
            ecall
            la t0, ends
            lw s0, 0(t0)            # s0: to read
            lw s1, 4(t0)            # s1: to write
            li a7, 1
            ecall
            mv s2, a0               # s2: 0 in the child
            bne s2, zero, parent
            mv a0, s1               # the child reads the pipe, and writes to standard output
            li a7, 21
            ecall
            li s1, 1
            j again
parent:     mv a0, s0               # the parent reads standard input, and writes into the pipe
            li a7, 21
            ecall
            li s0, 0
again:      mv a0, s0
            la a1, buffer
            li a2, 64
            li a7, 5
            ecall
            bge zero, a0, ended
            mv a2, a0
            mv a0, s1
            li a7, 16
            ecall
            j again
ended:      beq s2, zero, finish
            mv a0, s1               # the child sees the end
            li a7, 21
            ecall
            li a0, 0
            li a7, 3
            ecall
            li a0, 1
            la a1, done
            li a2, 5
            li a7, 16
            ecall
finish:     li a0, 0
            li a7, 2
            ecall
done:       .ascii "done\n"
            .pad 8
ends:       .zero 8
buffer:     .zero 64
