/*
 * Macros: calls of the system, a stack, texts with their lengths, and a loop.
 */
        .equ    WRITE, 16
        .equ    EXIT, 2

        .macro  syscall number, a=1, b=zero, c=1
        li      a0, \a
        mv      a1, \b
        li      a2, \c
        li      a7, \number
        ecall
        .endm

        .macro  push reg
        addi    sp, sp, -8
        sd      \reg, (sp)
        .endm

        .macro  pop reg:req
        ld      \reg, (sp)
        addi    sp, sp, 8
        .endm

# A loop: its name, how often, and the register that counts.
        .macro  times name count reg=t0
        li      \reg, \count
again_\name:
        .endm

        .macro  next name, reg=t0
        addi    \reg, \reg, -1
        bnez    \reg, again_\name
        .endm

# A text in .data, and its length as a name.
        .macro  text name, string
        .data
\name: .ascii  "\string"
\name\()_length = . - \name
        .text
        .endm

# The lesser of two registers; each call has a label of its own.
        .macro  least reg other
        ble     \reg, \other, least\@
        mv      \reg, \other
least\@:
        .endm

        .text
        .global _start
_start:
        text    greeting, "stack: "
        la      s0, greeting
        syscall WRITE, b=s0, c=greeting_length

        times   pushing, 5, s1          # pushes 5 to 1, but no more than 4
        mv      t1, s1
        li      t2, 4
        least   t1 t2
        push    t1
        next    pushing, s1

        la      s0, digit
        times   popping 5 reg=s1
        pop     t1
        addi    t1, t1, '0'
        least   t1, t1
        sb      t1, (s0)
        syscall WRITE, 1, s0
        next    popping, s1

        text    newline, "\n"
        la      s0, newline
        syscall WRITE, , s0
        syscall EXIT, 0

        .bss
digit:  .space  1
