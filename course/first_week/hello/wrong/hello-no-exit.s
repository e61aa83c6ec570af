# Goes on into the text after its last instruction.
# Loses: one line
start:      li a0, 1
            la a1, text
            li a2, 14
            li a7, 16
            ecall
text:       .ascii "hello, kernel\n"
