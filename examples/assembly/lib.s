# What the programs beside this text share: names for calls, the console, and how it is written to.
# It is included first, and the program goes on at `start`.
            .equ FORK, 1
            .equ EXIT, 2
            .equ WAIT, 3
            .equ PIPE, 4
            .equ READ, 5
            .equ EXEC, 7
            .equ SBRK, 12
            .equ OPEN, 15
            .equ WRITE, 16
            .equ MKNOD, 17
            .equ CLOSE, 21

# A call of the kernel, with its arguments in a0, a1 and a2.
            .macro system number
            li a7, \number
            ecall
            .endm

# Ends the process.
            .macro exit status
            li a0, \status
            system EXIT
            .endm

            j start

# open_console(): makes the console and opens it: descriptor 0, to read and to write.
open_console:
            la a0, console
            li a1, 1                # major 1, minor 0
            li a2, 0
            system MKNOD
            la a0, console
            li a1, 2
            system OPEN
            ret

# print(a0): writes a string up to its zero.
print:      mv a1, a0
            li a2, 0
1:          add t0, a1, a2
            lbu t0, (t0)
            beqz t0, 2f
            addi a2, a2, 1
            j 1b
2:          li a0, 0
            system WRITE
            ret

# print_bytes(a0, a1): writes that many bytes from an address on.
print_bytes:
            mv a2, a1
            mv a1, a0
            j 2b

# print_number(a0): writes it in decimal, and the line's end. The digits are made from the last to the first, on the stack.
print_number:
            addi sp, sp, -32
            addi a1, sp, 31         # a1: where the text begins
            li t1, 10
            sb t1, (a1)             # the line's end has the number 10, too
1:          remu t0, a0, t1         # the last digit
            divu a0, a0, t1
            addi t0, t0, '0'
            addi a1, a1, -1
            sb t0, (a1)
            bnez a0, 1b
            addi a2, sp, 32         # a2: how many characters
            sub a2, a2, a1
            li a0, 0
            system WRITE
            addi sp, sp, 32
            ret

            .data
console:    .asciz "console"
            .text
