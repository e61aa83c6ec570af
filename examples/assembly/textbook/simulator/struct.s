# An array of records:
#
#   struct student { char name[8]; short age; char grade; int points; };
#
# Prints each student, and then the one with the most points.

        .equ    NAME,   0
        .equ    AGE,    8
        .equ    GRADE,  10
        .equ    POINTS, 12
        .equ    SIZE,   16

        .data
        .align  2
students:
        .ascii  "Ada\0\0\0\0\0"
        .half   36
        .byte   'A', 0
        .word   98
        .ascii  "Brian\0\0\0"
        .half   27
        .byte   'B', 0
        .word   85
        .ascii  "Grace\0\0\0"
        .half   42
        .byte   'A', 0
        .word   99
        .ascii  "Ken\0\0\0\0\0"
        .half   31
        .byte   'C', 0
        .word   71
end:
best:   .asciz  "best: "
        .align  3
most:   .dword  0

        .text
main:   la      s0, students
        la      s1, end
        sd      zero, most, t0
each:   mv      a0, s0
        call    show
        ld      t0, most
        beqz    t0, better
        lw      t1, POINTS(t0)
        lw      t2, POINTS(s0)
        bge     t1, t2, worse
better: sd      s0, most, t0
worse:  addi    s0, s0, SIZE
        bne     s0, s1, each
        la      a0, best
        call    puts
        ld      a0, most
        call    show
        li      a0, 0
        li      a7, 2
        ecall

# show(student)
show:   addi    sp, sp, -16
        sd      ra, 0(sp)
        sd      s2, 8(sp)
        mv      s2, a0
        addi    a0, s2, NAME
        call    puts
        li      a0, ' '
        call    putc
        lh      a0, AGE(s2)
        call    putn
        li      a0, ' '
        call    putc
        lb      a0, GRADE(s2)
        call    putc
        li      a0, ' '
        call    putc
        lw      a0, POINTS(s2)
        call    putn
        li      a0, '\n'
        call    putc
        ld      s2, 8(sp)
        ld      ra, 0(sp)
        addi    sp, sp, 16
        ret

puts:   mv      a1, a0
        li      a2, -1
1:      addi    a2, a2, 1
        add     t0, a1, a2
        lbu     t0, (t0)
        bnez    t0, 1b
        li      a0, 1
        li      a7, 16
        ecall
        ret

putc:   addi    sp, sp, -16
        sb      a0, (sp)
        li      a0, 1
        mv      a1, sp
        li      a2, 1
        li      a7, 16
        ecall
        addi    sp, sp, 16
        ret

putn:   addi    sp, sp, -16
        addi    a1, sp, 16
        li      t1, 10
1:      rem     t0, a0, t1
        div     a0, a0, t1
        addi    t0, t0, '0'
        addi    a1, a1, -1
        sb      t0, (a1)
        bnez    a0, 1b
        addi    a2, sp, 16
        sub     a2, a2, a1
        li      a0, 1
        li      a7, 16
        ecall
        addi    sp, sp, 16
        ret
