# p: stores a byte at the address LAST, and ends with status 7.

            li t0, LAST
            sb zero, 0(t0)
            li a0, 7
            li a7, 2                # exit
            ecall
