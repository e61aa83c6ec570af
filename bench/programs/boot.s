# boot: on qemu's computer without pages and without a machine below it, starts the program that follows in the next page.
# Its exit, an ecall, comes to `ended`, which turns the computer off with the status in a0.

            auipc t0, 0
            addi t0, t0, 24         # ended
            .word 0x30529073        # csrw mtvec, t0
            auipc sp, 0x4000        # 64 MB above
            addi sp, sp, -16
            j program
ended:      lui t0, 0x100           # the device that turns it off
            lui t1, 0x3
            addi t1, t1, 0x333      # failed
            slli a0, a0, 16
            or t1, t1, a0
            bne a0, zero, off
            lui t1, 0x5
            addi t1, t1, 0x555      # passed
off:        sw t1, 0(t0)
            j off
            .pad 4096
program:
