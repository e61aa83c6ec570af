# Prints a line, and stores to where nothing is.
start:      li a0, 1
            la a1, text
            li a2, 8
            jal ra, write
            lui t0, 0x70000
            sd t0, 8(t0)
text:       .ascii "careful\n"
