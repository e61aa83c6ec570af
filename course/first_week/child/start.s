# child: starts a child and waits for it
start:      li a7, 1                # fork
            ecall

            li a0, 0
            li a7, 2
            ecall
            .pad 8
status:     .zero 8
