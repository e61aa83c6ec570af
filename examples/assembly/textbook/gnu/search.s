# Binary search in a sorted table of halves, which .rept and a counting name fill: the squares of 0 to 40.
        .section .rodata
        .align  1
squares:
        .set    i, 0
        .rept   41
        .half   i * i
        .set    i, i + 1
        .endr
        .equ    BYTES, . - squares
        .equ    COUNT, BYTES / 2

        .align  3
keys:   .dword  0, 1, 2, 81, 1600, 1601, 1024
keys_end:
found:  .asciz  "found\n"
missing:
        .asciz  "missing\n"

        .text
        .globl  _start
_start: la      s0, keys
        la      s1, keys_end
1:      ld      a0, 0(s0)
        jal     search
        la      a1, found
        li      a2, 6
        bgez    a0, 2f
        la      a1, missing
        li      a2, 8
2:      li      a0, 1
        li      a7, 16
        ecall
        addi    s0, s0, 8
        bltu    s0, s1, 1b
        li      a0, 0
        li      a7, 2
        ecall

# search(key): its index, or -1
search: li      t0, 0                   # low
        li      t1, COUNT               # high
        la      t2, squares
3:      bgeu    t0, t1, 5f
        add     t3, t0, t1
        srli    t3, t3, 1               # the middle
        slli    t4, t3, 1
        add     t4, t4, t2
        lhu     t4, 0(t4)
        beq     t4, a0, 6f
        bltu    a0, t4, 4f
        addi    t0, t3, 1
        j       3b
4:      mv      t1, t3
        j       3b
5:      li      a0, -1
        ret
6:      mv      a0, t3
        ret
