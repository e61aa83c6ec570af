# A child writes into a pipe, and its parent prints what comes out.
            .include "lib.s"
            .equ LENGTH, 100
start:      call open_console
            la a0, ends
            system PIPE             # the end to read, then the end to write
            system FORK
            beqz a0, child
            lw a0, ends
            la a1, text
            li a2, LENGTH
            system READ             # it waits for the child
            mv a1, a0
            la a0, text
            call print_bytes
            li a0, 0
            system WAIT             # without the status
            exit 0

child:      lw a0, ends + 4
            la a1, words
            li a2, 15
            system WRITE
            exit 0

            .data
words:      .ascii "from the child\n"
            .bss
            .align 2
ends:       .zero 8
text:       .zero LENGTH
