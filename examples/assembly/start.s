# Becomes the program /child, with two arguments, which prints how many it was given, its name among them.
            .include "lib.s"
start:      call open_console
            la a0, path
            la a1, words
            system EXEC             # it returns only if it is refused
            exit 0

            .data
path:       .asciz "/child"
one:        .asciz "one"
two:        .asciz "two"
            .align 3
words:      .dword path, one, two, 0    # the arguments' addresses, and a 0 after them
