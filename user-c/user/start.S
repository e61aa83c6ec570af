# Where a program begins: argc is in a0, argv in a1. What main returns is the status to exit with.
        .section .text.start, "ax"
        .globl  start
start:  call    main
        call    exit
