# Makes a directory in a directory, and so on.
start:      la a0, name
            jal ra, mkdir
            la a0, name
            jal ra, chdir
            j start
name:       .ascii "d\0"
