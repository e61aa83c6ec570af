# Prints each byte once, and ends.
start:      la s0, text
            li s1, 0
            li s2, 256
next:       add t0, s0, s1
            sb s1, 0(t0)
            addi s1, s1, 1
            bne s1, s2, next
            li a0, 1
            mv a1, s0
            li a2, 256
            jal ra, write
            li a0, 0
            jal ra, exit
text:       .zero 256
