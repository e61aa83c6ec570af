# Prints the squares of 1 to 5.
            .include "lib.s"
start:      call open_console
            li s0, 1                # s0: the number
next:       mul a0, s0, s0
            call print_number
            addi s0, s0, 1
            li t0, 5
            ble s0, t0, next        # up to 5
            exit 0
