# hello: prints a line
start:      li a0, 1
            la a1, text
            li a2, 14
            li a7, 16
            ecall
            li a0, 0
            li a7, 2
            ecall
text:       .ascii "hello, kernel\n"
