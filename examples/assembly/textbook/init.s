# init.s: opens the console as descriptors 0, 1 and 2, runs /program, and ends with its status.
            la a0, console
            li a1, 1                # major 1, minor 0
            li a2, 0
            li a7, 17               # mknod
            ecall
            la a0, console
            li a1, 2                # to read and to write
            li a7, 15               # open: descriptor 0
            ecall
            li a7, 10               # dup: descriptor 1
            ecall
            li a0, 0
            li a7, 10               # dup: descriptor 2
            ecall
            li a7, 1                # fork
            ecall
            beqz a0, child
            la a0, status
            li a7, 3                # wait
            ecall
            lw a0, status
            li a7, 2                # exit
            ecall
child:      la a0, path
            la a1, arguments
            li a7, 7                # exec: it returns only if there is no such program
            ecall
            li a0, 1
            li a7, 2
            ecall

            .data
            .balign 8
arguments:  .dword path, 0
status:     .word 0
path:       .asciz "program"
console:    .asciz "console"
