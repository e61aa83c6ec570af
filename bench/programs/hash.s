# hash: the hash FNV-1a over 1024 bytes, ROUNDS times, one after the other. MULTIPLY multiplies a0 by a1.

            la s3, bytes
            la s4, end
            mv t0, s3
fill:       sb t0, 0(t0)
            addi t0, t0, 1
            bne t0, s4, fill

            la t0, basis
            ld s0, 0(t0)            # s0: the hash so far
            ld s1, 8(t0)            # s1: what it is multiplied by
            ld s2, 16(t0)           # s2: what it has to be at the end
            li s5, ROUNDS
round:      mv s6, s3
byte:       lbu t0, 0(s6)
            xor a0, s0, t0
            mv a1, s1
            MULTIPLY
            mv s0, a0
            addi s6, s6, 1
            bne s6, s4, byte
            addi s5, s5, -1
            bne s5, zero, round
            li a0, 0
            beq s0, s2, exit
            li a0, 1
exit:       li a7, 2                # exit
            ecall

# a0 is multiplied by a1: a sum for each bit of a1, as the library of a compiler does it. It changes a1, a2 and a3.
times:      mv a2, a0
            li a0, 0
bit:        andi a3, a1, 1
            beq a3, zero, next
            add a0, a0, a2
next:       srli a1, a1, 1
            slli a2, a2, 1
            bne a1, zero, bit
            ret

            .pad 8
basis:      .dword 14695981039346656037
            .dword 1099511628211
            .dword WANTED
            .pad 4096
bytes:      .zero 1024
end:
