# Fills the disk, and goes on trying.
start:      la a0, name
            li a1, 0x201
            jal ra, open
            mv s0, a0
more:       mv a0, s0
            la a1, start
            li a2, 1024
            jal ra, write
            j more
name:       .ascii "full\0"
