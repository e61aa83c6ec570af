# ls [PATH]: the names in a directory, one a line; in the working directory where no path is given. Of a path that is no
# directory the path itself.
#
# At the start a0 is the number of arguments, the program's name among them, and a1 the address of the list of their
# addresses, which ends with a 0. `jal ra, NAME` calls a function or the kernel: both take a0, a1, .. and return in a0,
# the kernel -1 for a refusal; `ret` returns. A function keeps sp and s0 to s11, a call all registers except a0 and a7.

start:      ld s0, 8(a1)            # s0: the path
            bne s0, zero, given
            la s0, here             # none is given
given:      mv a0, s0
            li a1, 0                # open it to read
            jal ra, open
            blt a0, zero, missing
            mv s1, a0               # s1: its descriptor
            la a1, record           # what is it?
            jal ra, fstat
            blt a0, zero, missing
            la t0, record
            lh t0, 8(t0)            # 1 is a directory
            li t1, 1
            beq t0, t1, entry
            li a0, 1                # a file or a device: its path, and a line end
            mv a1, s0
            jal ra, print
            li a0, 1
            la a1, line_end
            jal ra, print
            j finish

entry:      mv a0, s1               # an entry: a number of 2 bytes, and 14 bytes of name, with zeros after it
            la a1, place
            li a2, 16
            jal ra, read
            li t0, 16
            bne a0, t0, finish      # the end
            la a1, place
            lhu t0, 0(a1)           # its number
            beq t0, zero, entry     # a free entry
            addi a1, a1, 2          # a1: the name
            mv a2, zero             # a2: its length: up to a 0, and at most 14
            li t2, 14
letter:     beq a2, t2, ended
            add t0, a1, a2
            lbu t1, 0(t0)
            beq t1, zero, ended
            addi a2, a2, 1
            j letter
ended:      add t0, a1, a2          # a line end after it
            li t1, 10
            sb t1, 0(t0)
            addi a2, a2, 1
            li a0, 1                # both at once
            jal ra, write
            j entry

finish:     li a0, 0                # all went well
            jal ra, exit

missing:    li a0, 2                # print which path can't be opened
            la a1, cannot_open
            jal ra, print
            li a0, 2
            mv a1, s0
            jal ra, print
            li a0, 2
            la a1, line_end
            jal ra, print
            li a0, 1
            jal ra, exit

# ---- functions

# print(descriptor, text): writes a text that ends with a 0
print:      mv a2, zero             # a2: its length, counted up to the 0
measure:    add t0, a1, a2
            lbu t0, 0(t0)
            beq t0, zero, write     # the call takes it from here, and comes back for this function
            addi a2, a2, 1
            j measure

# ---- calls of the kernel: the number goes into a7

exit:       li a7, 2
            ecall
read:       li a7, 5
            ecall
            ret
fstat:      li a7, 8
            ecall
            ret
open:       li a7, 15
            ecall
            ret
write:      li a7, 16
            ecall
            ret

# ---- data

cannot_open: .ascii "ls: cannot open \0"
line_end:   .ascii "\n\0"
here:       .ascii "\0"             # the empty path is the working directory
            .pad 8
record:     .zero 24                # what fstat writes: the type is at 8
place:      .zero 16                # an entry
            .zero 1                 # the line end of a name of 14 bytes
