# A table of distances, as compilers make them: a small stack machine runs a program of bytes.
        .equ    PUSH, 0
        .equ    ADD, 1
        .equ    MUL, 2
        .equ    DUP, 3
        .equ    PRINT, 4
        .equ    HALT, 5

        .section .rodata
        .p2align 2
handlers:
        .word   op_push - handlers
        .word   op_add - handlers
        .word   op_mul - handlers
        .word   op_dup - handlers
        .word   op_print - handlers
        .word   op_halt - handlers
program:
        .byte   PUSH, 6, PUSH, 7, MUL, PRINT            # 6 * 7
        .byte   PUSH, 3, DUP, MUL, PUSH, 4, DUP, MUL, ADD, PRINT
        .byte   HALT

        .section .text
        .globl  _start
_start:
        la      s0, program             # what is done next
        la      s1, stack_top
dispatch:
        lbu     t0, 0(s0)
        addi    s0, s0, 1
        la      t1, handlers
        slli    t0, t0, 2
        add     t0, t0, t1
        lw      t0, 0(t0)
        add     t0, t0, t1
        jr      t0

op_push:
        lbu     t0, 0(s0)
        addi    s0, s0, 1
1:      addi    s1, s1, -8
        sd      t0, 0(s1)
        j       dispatch
op_add:
        ld      t0, 0(s1)
        ld      t1, 8(s1)
        addi    s1, s1, 16
        add     t0, t0, t1
        j       1b
op_mul:
        ld      t0, 0(s1)
        ld      t1, 8(s1)
        addi    s1, s1, 16
        mul     t0, t0, t1
        j       1b
op_dup:
        ld      t0, 0(s1)
        j       1b
op_print:
        ld      a0, 0(s1)
        addi    s1, s1, 8
        la      a1, buffer_end
        li      t0, 10
2:      rem     t1, a0, t0
        div     a0, a0, t0
        addi    t1, t1, '0'
        addi    a1, a1, -1
        sb      t1, 0(a1)
        bnez    a0, 2b
        la      a2, buffer_end + 1      # with the line's end
        sub     a2, a2, a1
        li      a0, 1
        li      a7, 16
        ecall
        j       dispatch
op_halt:
        li      a0, 0
        li      a7, 2
        ecall

        .section .data
buffer: .skip   20
buffer_end:
        .byte   '\n'

        .section .bss
        .align  4
        .skip   256
stack_top:
