# hello: prints a line
start:      li a0, 1                # write: to standard output,
            la a1, text             # from here,
            li a2, 0                # how many bytes?
            li a7, 16
            ecall
            # what comes after the last instruction? exit is call 2

text:       .ascii "hello, kernel\n"
