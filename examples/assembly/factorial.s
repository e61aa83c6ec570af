# Prints 20 * 19 * .. * 1, by a function that calls itself.
            .include "lib.s"
start:      call open_console
            li a0, 20
            call factorial
            call print_number
            exit 0

# factorial(a0): what is needed after the call goes on the stack.
factorial:  li t0, 2
            blt a0, t0, one
            addi sp, sp, -16
            sd ra, 8(sp)
            sd a0, (sp)
            addi a0, a0, -1
            call factorial
            ld t0, (sp)
            mul a0, a0, t0
            ld ra, 8(sp)
            addi sp, sp, 16
            ret
one:        li a0, 1
            ret
