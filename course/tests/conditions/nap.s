# Sleeps for five ticks, and prints a line.
start:      li a0, 5
            jal ra, sleep
            li a0, 1
            la a1, text
            li a2, 6
            jal ra, write
            li a0, 0
            jal ra, exit
text:       .ascii "awake\n"
