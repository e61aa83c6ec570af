# Closes all descriptors, and ends.
start:      li s0, 15
next:       mv a0, s0
            jal ra, close
            addi s0, s0, -1
            bge s0, zero, next
            li a0, 0
            jal ra, exit
