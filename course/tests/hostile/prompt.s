# Prints what looks like the end of a test, a prompt, and goes on.
start:      li a0, 1
            la a1, text
            li a2, 9
            jal ra, write
spin:       j spin
text:       .ascii "answer\n$ "
