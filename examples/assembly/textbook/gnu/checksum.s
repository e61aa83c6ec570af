# CRC-32 of a text, by a table that the program makes first, and then bit by bit: both have to give the same.
        .equ    POLYNOMIAL, 0xEDB88320
        .comm   table, 4 * 256, 8

        .globl  _start
        .text
_start:
        call    make_table
        la      a0, text
        lw      a1, length
        call    by_table
        mv      s0, a0
        la      a0, text
        lw      a1, length
        call    by_bits
        xor     t0, s0, a0
        bnez    t0, exit
        call    print_hex
        li      t0, 0
exit:   snez    a0, t0
        li      a7, 2
        ecall

make_table:
        la      t0, table
        li      t1, 0
        li      t5, POLYNOMIAL
1:      mv      t2, t1
        li      t3, 8
2:      andi    t4, t2, 1
        srli    t2, t2, 1
        beqz    t4, 3f
        xor     t2, t2, t5
3:      addi    t3, t3, -1
        bnez    t3, 2b
        sw      t2, 0(t0)
        addi    t0, t0, 4
        addi    t1, t1, 1
        li      t3, 256
        bne     t1, t3, 1b
        ret

by_table:
        add     a1, a1, a0
        la      t0, table
        li      t1, 0xFFFFFFFF
1:      lbu     t2, (a0)
        xor     t2, t2, t1
        andi    t2, t2, 0xFF
        slli    t2, t2, 2
        add     t2, t2, t0
        lwu     t2, (t2)
        srli    t1, t1, 8
        xor     t1, t1, t2
        addi    a0, a0, 1
        bltu    a0, a1, 1b
        not     a0, t1
        zext.w  a0, a0
        ret

by_bits:
        add     a1, a1, a0
        li      t5, POLYNOMIAL
        li      t1, ~0 & 0xFFFFFFFF
1:      lbu     t2, (a0)
        xor     t1, t1, t2
        .rept   8
        andi    t3, t1, 1
        neg     t3, t3
        and     t3, t3, t5
        srli    t1, t1, 1
        xor     t1, t1, t3
        .endr
        addi    a0, a0, 1
        bltu    a0, a1, 1b
        not     a0, t1
        slli    a0, a0, 32
        srli    a0, a0, 32
        ret

print_hex:
        la      t0, shown
        li      t1, 28
1:      srl     t2, a0, t1
        andi    t2, t2, 15
        sltiu   t3, t2, 10
        xori    t3, t3, 1
        li      t4, 'a' - '0' - 10
        mul     t3, t3, t4              # letters lie further
        add     t2, t2, t3
        addi    t2, t2, '0'
        sb      t2, (t0)
        addi    t0, t0, 1
        addi    t1, t1, -4
        bgez    t1, 1b
        li      a0, 1
        la      a1, shown
        li      a2, 9
        li      a7, 16
        ecall
        ret

        .data
text:   .ascii  "123456789"
length_of_text = . - text
        .balign 4
length: .word   length_of_text
shown:  .ascii  "????????\n"
