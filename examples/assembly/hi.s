# Says hi.
            .include "lib.s"
start:      call open_console
            la a0, text
            call print
            exit 0                  # the machine halts

            .data
text:       .asciz "hi\n"
