# Reads the console without end, and so each line that is typed.
start:      li a0, 0
            la a1, room
            li a2, 100
            jal ra, read
            j start
room:       .zero 100
