# Empties and fills a file without end.
start:      la a0, name
            li a1, 0x601
            jal ra, open
            mv s0, a0
            li s1, 100
more:       mv a0, s0
            la a1, start
            li a2, 1024
            jal ra, write
            addi s1, s1, -1
            bne s1, zero, more
            mv a0, s0
            jal ra, close
            j start
name:       .ascii "full\0"
