# Prints the answer's line and ends; its child goes on.
start:      jal ra, fork
            beq a0, zero, start_child
            li a0, 0
            jal ra, exit
start_child: j start_child
