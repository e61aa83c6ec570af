# Forks without end, and so do its children.
start:      jal ra, fork
            j start
