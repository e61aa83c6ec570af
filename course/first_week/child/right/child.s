# child: starts a child and waits for it
start:      li a7, 1
            ecall
            bne a0, zero, parent
            li a0, 1
            la a1, first
            li a2, 6
            li a7, 16
            ecall
            li a0, 7
            li a7, 2
            ecall
parent:     la a0, status
            li a7, 3
            ecall
            li a0, 1
            la a1, second
            li a2, 7
            li a7, 16
            ecall
            la a1, status           # the digit, and a line end
            lbu t0, 0(a1)
            addi t0, t0, 48
            sb t0, 0(a1)
            li t0, 10
            sb t0, 1(a1)
            li a0, 1
            li a2, 2
            ecall
            li a0, 0
            li a7, 2
            ecall
first:      .ascii "child\n"
second:     .ascii "parent\n"
            .pad 8
status:     .zero 8
