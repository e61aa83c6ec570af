# Hello, world, as a program for an operating system: write, and exit.
        .equ    SYS_write, 16
        .equ    SYS_exit, 2
        .equ    STDOUT, 1

        .section .rodata
        .align  2
msg:    .ascii  "Hello, world!\n"
        .set    len, . - msg

        .section .text
        .globl  _start
        .type   _start, @function
_start:
        li      a0, STDOUT              # descriptor
        lla     a1, msg                 # what to write
        li      a2, len                 # how many bytes
        li      a7, SYS_write
        ecall
        xor     a0, a0, len             # 0 if all were written
        snez    a0, a0
        li      a7, SYS_exit
        ecall
        .size   _start, . - _start
