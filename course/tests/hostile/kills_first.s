# Kills process 1.
start:      li a0, 1
            jal ra, kill
            li a0, 0
            jal ra, exit
