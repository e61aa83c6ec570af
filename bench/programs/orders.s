# orders: CHILDREN children each make CALLS calls of getpid and end; and waits for all of them. Every order of these is the same.

            li s0, CHILDREN
make:       li a7, 1                # fork
            ecall
            beq a0, zero, child
            blt a0, zero, failed
            addi s0, s0, -1
            bne s0, zero, make
            li s0, CHILDREN
wait:       li a7, 3                # wait, which stores no status
            li a0, 0
            ecall
            blt a0, zero, failed
            addi s0, s0, -1
            bne s0, zero, wait
            li a0, 0
            j exit

child:      li s0, CALLS
call:       li a7, 11               # getpid
            ecall
            addi s0, s0, -1
            bne s0, zero, call
            li a0, 0
            j exit

failed:     li a0, 1
exit:       li a7, 2
            ecall
