# Counting and turning bits: three ways to count, leading zeros, and a word from its last bit to its first.
        .text
        .globl  _start
_start:
        li      s0, 0xF0F00001
        mv      a0, s0
        call    count_by_loop
        mv      s1, a0
        mv      a0, s0
        call    count_by_and
        bne     a0, s1, fail
        mv      a0, s0
        call    count_by_sums
        bne     a0, s1, fail
        call    print                   # 9
        li      a0, 0x00FF
        call    leading_zeros
        call    print                   # 24
        mv      a0, s0
        call    reverse
        srliw   a0, a0, 16
        call    print                   # 0x8000, of 0x80000f0f
        li      a0, 0
        j       1f
fail:   li      a0, 1
1:      li      a7, 2
        ecall

count_by_loop:
        li      t0, 0
        .rept   32
        andi    t1, a0, 1
        add     t0, t0, t1
        srli    a0, a0, 1
        .endr
        mv      a0, t0
        ret

count_by_and:                           # a0 & (a0 - 1) has one bit less
        li      t0, 0
1:      beqz    a0, 2f
        addi    t1, a0, -1
        and     a0, a0, t1
        addi    t0, t0, 1
        j       1b
2:      mv      a0, t0
        ret

count_by_sums:
        li      t0, 0x55555555
        srliw   t1, a0, 1
        and     t1, t1, t0
        subw    a0, a0, t1
        li      t0, 0x33333333
        and     t1, a0, t0
        srliw   a0, a0, 2
        and     a0, a0, t0
        addw    a0, a0, t1
        srliw   t1, a0, 4
        addw    a0, a0, t1
        li      t0, 0x0F0F0F0F
        and     a0, a0, t0
        li      t0, 0x01010101
        mulw    a0, a0, t0
        srliw   a0, a0, 24
        ret

leading_zeros:                          # of 32 bits
        slli    a0, a0, 32
        li      t0, 0
1:      bltz    a0, 2f
        slli    a0, a0, 1
        addi    t0, t0, 1
        li      t1, 32
        bltu    t0, t1, 1b
2:      mv      a0, t0
        ret

reverse:
        li      t0, 0
        li      t1, 32
1:      slli    t0, t0, 1
        andi    t2, a0, 1
        or      t0, t0, t2
        srli    a0, a0, 1
        addi    t1, t1, -1
        bgtz    t1, 1b
        sext.w  a0, t0
        ret

print:  addi    sp, sp, -32
        addi    a1, sp, 31
        li      t0, '\n'
        sb      t0, (a1)
        li      t0, 10
1:      remu    t1, a0, t0
        divu    a0, a0, t0
        addi    t1, t1, '0'
        addi    a1, a1, -1
        sb      t1, (a1)
        bnez    a0, 1b
        addi    a2, sp, 32
        sub     a2, a2, a1
        li      a0, 1
        li      a7, 16
        ecall
        addi    sp, sp, 32
        ret
