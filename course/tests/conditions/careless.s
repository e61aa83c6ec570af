# Opens /echo and doesn't close it, has a child that it doesn't wait for. Both end with status 3.
start:      la a0, name
            li a1, 0
            jal ra, open
            jal ra, fork
            beq a0, zero, child
            li a0, 3
            jal ra, exit
child:      li a0, 1
            la a1, text
            li a2, 6
            jal ra, write
            li a0, 3
            jal ra, exit
name:       .ascii "/echo\0"
text:       .ascii "child\n"
