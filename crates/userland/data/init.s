# init: the first process. It opens the console, keeps a shell running, and never ends by itself.
#
# At the start a0 is the number of arguments, the program's name among them, and a1 the address of the list of their
# addresses, which ends with a 0. `jal ra, NAME` calls a function or the kernel: both take a0, a1, .. and return in a0,
# the kernel -1 for a refusal; `ret` returns. A function keeps sp and s0 to s11, a call all registers except a0 and a7.

start:      la a0, console          # descriptor 0 is the console, to read and to write
            li a1, 2
            jal ra, open
            bge a0, zero, opened
            la a0, console          # there is none yet: make it, the device 1, 0
            li a1, 1
            li a2, 0
            jal ra, mknod
            la a0, console          # and open it
            li a1, 2
            jal ra, open
opened:     li a0, 0                # descriptors 1 and 2 are the same open file
            jal ra, dup
            li a0, 0
            jal ra, dup

again:      li a0, 1                # print that a shell is started
            la a1, starting
            jal ra, print
            jal ra, fork
            beq a0, zero, child
            blt a0, zero, give_up   # no room for it
            mv s0, a0               # s0: its pid

waiting:    li a0, 0                # wait for a child; those whose parents are gone are children of this process too
            jal ra, wait
            beq a0, s0, again       # the shell has ended
            bge a0, zero, waiting
            j again                 # no child at all

child:      la a0, shell            # the child becomes the shell, with its name as the only argument
            la a1, arguments
            sd a0, 0(a1)
            jal ra, exec
give_up:    li a0, 1                # back here only if there is no such program
            jal ra, exit

# ---- functions

# print(descriptor, text): writes a text that ends with a 0
print:      mv a2, zero             # a2: its length, counted up to the 0
measure:    add t0, a1, a2
            lbu t0, 0(t0)
            beq t0, zero, write     # the call takes it from here, and comes back for this function
            addi a2, a2, 1
            j measure

# ---- calls of the kernel: the number goes into a7

fork:       li a7, 1
            ecall
            ret
exit:       li a7, 2
            ecall
wait:       li a7, 3
            ecall
            ret
exec:       li a7, 7
            ecall
            ret
dup:        li a7, 10
            ecall
            ret
open:       li a7, 15
            ecall
            ret
write:      li a7, 16
            ecall
            ret
mknod:      li a7, 17
            ecall
            ret

# ---- data

console:    .ascii "console\0"
starting:   .ascii "init: starting sh\n\0"
shell:      .ascii "sh\0"
            .pad 8
arguments:  .dword 0                # the shell's name
            .dword 0                # no more
