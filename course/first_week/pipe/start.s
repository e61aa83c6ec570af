# pass: sends its input through a pipe
start:      la a0, ends
            li a7, 4                # pipe
            ecall
            li a7, 1                # fork
            ecall

            li a0, 0
            li a7, 2
            ecall
done:       .ascii "done\n"
            .pad 8
ends:       .zero 8
buffer:     .zero 64
