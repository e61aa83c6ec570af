# exec: grows by BYTES bytes, and then makes ROUNDS times a child, which executes the program `p` at once; and waits for it.
# `p` ends with status 7.

            li a7, 12               # sbrk
            li a0, BYTES
            ecall
            blt a0, zero, failed
            li s0, ROUNDS
            la s1, status
            li s3, 7
round:      li a7, 1                # fork
            ecall
            beq a0, zero, child
            blt a0, zero, failed
            mv s2, a0               # s2: the child
            mv a0, s1
            li a7, 3                # wait
            ecall
            bne a0, s2, failed
            lw t0, 0(s1)
            bne t0, s3, failed
            addi s0, s0, -1
            bne s0, zero, round
            li a0, 0
            j exit

child:      la a0, name
            la a1, arguments
            sd a0, 0(a1)
            li a7, 7                # exec
            ecall
failed:     li a0, 1
exit:       li a7, 2
            ecall

name:       .ascii "p\0"
            .pad 8
arguments:  .dword 0                # the name
            .dword 0                # no more
status:     .word 0
