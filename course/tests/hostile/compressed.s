# Has instructions of two bytes, as a compiler for rv64gc makes them.
start:      .byte 0x41
            .byte 0x11
            .byte 0x22
            .byte 0xe4
            j start
