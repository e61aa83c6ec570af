# Where a program begins: argc in a0 and argv in a1, as main takes them, and sp at the top of the stack's page. All other
# registers are 0. What main answers is the status to exit with.
        .globl  start
start:
        call    main
        li      a7, 2           # exit
        ecall
