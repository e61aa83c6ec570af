# Asks for memory, fills it with the numbers 1 to 1000, and prints their sum.
            .include "lib.s"
            .equ COUNT, 1000
start:      call open_console
            li a0, COUNT * 8
            system SBRK             # where the new bytes begin
            mv s0, a0
            li t0, 1
            li t1, COUNT
fill:       sd t0, (a0)
            addi a0, a0, 8
            addi t0, t0, 1
            ble t0, t1, fill
            li t0, 0                # t0: how many are added
            li a0, 0                # a0: their sum
add:        ld t2, (s0)
            add a0, a0, t2
            addi s0, s0, 8
            addi t0, t0, 1
            blt t0, t1, add
            call print_number
            exit 0
