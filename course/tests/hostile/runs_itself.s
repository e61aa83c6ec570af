# Runs its own program again and again.
start:      la a0, name
            la a1, list
            jal ra, exec
            j start
            .pad 8
list:       .zero 8
name:       .ascii "answer\0"
