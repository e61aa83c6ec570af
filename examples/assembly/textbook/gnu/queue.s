# A queue in a ring of eight words: its indices are taken by a mask, and its parts by %hi and %lo.
        .equ    SIZE, 8
        .equ    MASK, SIZE - 1

        .section .bss
        .balign 4
ring:   .fill   SIZE, 4
head:   .space  4
tail_:  .space  4

        .section .text
        .globl  _start
_start:
        li      s0, 1
1:      mv      a0, s0                  # 1, 2, .. until it is full
        call    put
        bnez    a0, 2f
        addi    s0, s0, 1
        j       1b
2:      addi    a0, s0, -1
        call    print
        li      s1, 3                   # three are taken and put again, ten times as large
3:      call    get
        li      t0, 10
        mul     a0, a0, t0
        call    put
        addi    s1, s1, -1
        bnez    s1, 3b
4:      call    get                     # all are taken
        bltz    a0, 5f
        call    print
        j       4b
5:      li      a0, 0
        li      a7, 2
        ecall

# put(a0): 0, or -1 if the queue is full
put:    lui     t0, %hi(tail_)
        lw      t1, %lo(tail_)(t0)
        lui     t2, %hi(head)
        lw      t3, %lo(head)(t2)
        subw    t4, t1, t3
        li      t5, SIZE
        bge     t4, t5, full
        andi    t3, t1, MASK
        slli    t3, t3, 2
        lui     t4, %hi(ring)
        addi    t4, t4, %lo(ring)
        add     t4, t4, t3
        sw      a0, 0(t4)
        addiw   t1, t1, 1
        sw      t1, %lo(tail_)(t0)
        li      a0, 0
        ret
full:   li      a0, -1
        ret

# get(): the value, or -1 if the queue is empty
get:    lui     t0, %hi(head)
        lw      t1, %lo(head)(t0)
        lui     t2, %hi(tail_)
        lw      t3, %lo(tail_)(t2)
        beq     t1, t3, full
        andi    t3, t1, MASK
        slli    t3, t3, 2
        lui     t4, %hi(ring)
        addi    t4, t4, %lo(ring)
        add     t4, t4, t3
        lw      a0, 0(t4)
        addiw   t1, t1, 1
        sw      t1, %lo(head)(t0)
        ret

print:  addi    sp, sp, -16
        addi    a1, sp, 15
        li      t0, '\n'
        sb      t0, 0(a1)
        li      t0, 10
1:      remw    t1, a0, t0
        divw    a0, a0, t0
        addi    t1, t1, '0'
        addi    a1, a1, -1
        sb      t1, 0(a1)
        bnez    a0, 1b
        addi    a2, sp, 16
        sub     a2, a2, a1
        li      a0, 1
        li      a7, 16
        ecall
        addi    sp, sp, 16
        ret
