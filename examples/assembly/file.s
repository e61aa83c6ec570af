# Writes a file, reads it again, and prints it.
            .include "lib.s"
            .equ LENGTH, 100
start:      call open_console
            la a0, path
            li a1, 0x201            # to write, and made if it isn't there
            system OPEN
            mv s0, a0               # s0: its descriptor
            la a1, words
            li a2, 13
            system WRITE
            mv a0, s0
            system CLOSE
            la a0, path
            li a1, 0                # to read
            system OPEN
            la a1, text
            li a2, LENGTH
            system READ
            mv a1, a0
            la a0, text
            call print_bytes
            exit 0

            .data
path:       .asciz "note"
words:      .ascii "from the disk"
            .bss
text:       .zero LENGTH
