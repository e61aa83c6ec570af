# Kills process 2, the shell.
start:      li a0, 2
            jal ra, kill
            li a0, 0
            jal ra, exit
