# crash: reads from an address where it has no page, which ends it.

start:      li t0, 0x5000
            ld a0, 0(t0)
            li a7, 2
            ecall
