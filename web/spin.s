# spin: counts, in memory, for ever. `kill` ends it.

start:      la a0, count
again:      ld t0, 0(a0)
            addi t0, t0, 1
            sd t0, 0(a0)
            j again

count:      .zero 8
