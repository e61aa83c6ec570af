# A child loads from where nothing is; its parent says that it ended with -1.
            .include "lib.s"
start:      call open_console
            system FORK
            beqz a0, child
            la a0, status
            system WAIT
            lw t0, status
            li t1, -1
            bne t0, t1, done
            la a0, text
            call print
done:       exit 0

child:      li t0, 0x7000000
            ld a0, (t0)             # the process ends here
            exit 0

            .data
text:       .asciz "the child ended: -1\n"
            .bss
            .align 2
status:     .zero 4
