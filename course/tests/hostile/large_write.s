# Prints 200 pages by each call.
start:      li a0, 819200
            jal ra, sbrk
            mv s0, a0
print:      li a0, 1
            mv a1, s0
            li a2, 819200
            jal ra, write
            j print
