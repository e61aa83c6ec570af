# Reads a line and prints it from its end to its start.
            .include "lib.s"
            .equ LENGTH, 100
start:      call open_console
            li a0, 0
            la a1, line
            li a2, LENGTH
            system READ             # it returns once a line is typed
            mv s0, a0               # s0: how many characters are left; the last is the line's end
next:       addi s0, s0, -1
            beqz s0, done
            la a0, line - 1
            add a0, a0, s0
            li a1, 1
            call print_bytes
            j next
done:       la a0, end
            call print
            exit 0

            .data
end:        .asciz "\n"
            .bss
line:       .zero LENGTH
