# Two locks, as locks_ordered.c has them: pipes with one byte each, which a parent and its child take in the same order.
            .include "../assembly/lib.s"

start:      la a0, first
            call make_lock
            la a0, second
            call make_lock
            system FORK
            la s0, first            # both take this one first
            la s1, second
            bnez a0, parent
            call hold_both
            exit 0
parent:     call hold_both
            li a0, 0
            system WAIT
            exit 7

# Makes a lock, the pipe's ends at a0: it has its byte.
make_lock:  mv s0, a0
            system PIPE
            lw a0, 4(s0)
            j give

# Takes the lock s0, then the lock s1, and gives both back.
hold_both:  mv s2, ra
            lw a0, (s0)
            call take
            lw a0, (s1)
            call take
            lw a0, 4(s1)
            call give
            lw a0, 4(s0)
            mv ra, s2
            j give

# Reads a byte of the pipe's end a0, and writes one to it.
take:       la a1, key
            li a2, 1
            system READ
            ret
give:       la a1, key
            li a2, 1
            system WRITE
            ret

            .data
key:        .ascii "k"
            .bss
            .align 2
first:      .zero 8
second:     .zero 8
