# memory: ROUNDS rounds over 4096 words of eight bytes, in which every second instruction loads or stores.

            auipc t6, 1             # the words, which are a page on, wherever this lies
            li t0, ROUNDS
            lui t5, 8               # 32768 bytes
            add t5, t5, t6
round:      mv t4, t6
word:       ld t1, 0(t4)
            add t1, t1, t0
            sd t1, 0(t4)
            ld t2, 8(t4)
            add t2, t2, t1
            sd t2, 8(t4)
            addi t4, t4, 16
            bltu t4, t5, word
            addi t0, t0, -1
            bne t0, zero, round
            li a0, 0
            li a7, 2                # exit
            ecall

            .pad 4096
            .zero 32768
