# A child ends with status 7, and its parent prints that.
            .include "lib.s"
start:      call open_console
            system FORK             # 0 in the child
            beqz a0, child
            la a0, status
            system WAIT             # the status goes to the address
            lw a0, status
            call print_number
            exit 0
child:      exit 7

            .bss
            .align 2
status:     .zero 4
