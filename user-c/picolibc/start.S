# Where a program begins: argc is in a0, argv in a1, which point into the kernel's stack of one page. C's own is
# program.ld's.
        .section .text.start, "ax"
        .globl  start
start:  la      sp, __stack_top
        la      tp, __thread_start
        mv      s0, a0
        mv      s1, a1
        call    __libc_init_array
        mv      a0, s0
        mv      a1, s1
        call    main
        call    exit
