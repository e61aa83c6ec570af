# cat [FILE..]: copies the files, or descriptor 0 where there are none, to descriptor 1.
#
# At the start a0 is the number of arguments, the program's name among them, and a1 the address of the list of their
# addresses, which ends with a 0. `jal ra, NAME` calls a function or the kernel: both take a0, a1, .. and return in a0,
# the kernel -1 for a refusal; `ret` returns. A function keeps sp and s0 to s11, a call all registers except a0 and a7.

start:      addi s0, a1, 8          # s0: where the next argument's address is, after that of the program's name
            ld t0, 0(s0)
            bne t0, zero, file
            li a0, 0                # no file is named: descriptor 0
            jal ra, copy
            j finish

file:       ld a0, 0(s0)            # one file after the other
            beq a0, zero, finish
            li a1, 0                # open it to read
            jal ra, open
            blt a0, zero, missing
            mv s1, a0               # s1: its descriptor
            jal ra, copy
            mv a0, s1               # it isn't read any more
            jal ra, close
            addi s0, s0, 8          # the next argument
            j file

finish:     li a0, 0                # all went well
            jal ra, exit

missing:    li a0, 2                # print which file can't be opened
            la a1, cannot_open
            jal ra, print
            li a0, 2
            ld a1, 0(s0)
            jal ra, print
            li a0, 2
            la a1, line_end
            jal ra, print
            j failed

# copy(descriptor): writes to descriptor 1 all that can be read there
copy:       addi sp, sp, -32        # what is kept for the caller goes on the stack
            sd ra, 0(sp)
            sd s0, 8(sp)
            sd s1, 16(sp)
            mv s0, a0               # s0: the descriptor
more:       mv a0, s0               # read as much as the buffer holds
            la a1, buffer
            li a2, 512
            jal ra, read
            blt a0, zero, unread
            beq a0, zero, copied    # its end
            mv s1, a0               # s1: how many bytes came
            li a0, 1                # write them
            la a1, buffer
            mv a2, s1
            jal ra, write
            beq a0, s1, more
            la a1, write_error      # not all were taken
            j complain
copied:     ld ra, 0(sp)            # as the caller had them
            ld s0, 8(sp)
            ld s1, 16(sp)
            addi sp, sp, 32
            ret

unread:     la a1, read_error
complain:   li a0, 2                # a1: what is printed
            jal ra, print
failed:     li a0, 1
            jal ra, exit

# ---- functions

# print(descriptor, text): writes a text that ends with a 0
print:      mv a2, zero             # a2: its length, counted up to the 0
measure:    add t0, a1, a2
            lbu t0, 0(t0)
            beq t0, zero, write     # the call takes it from here, and comes back for this function
            addi a2, a2, 1
            j measure

# ---- calls of the kernel: the number goes into a7

exit:       li a7, 2
            ecall
read:       li a7, 5
            ecall
            ret
open:       li a7, 15
            ecall
            ret
write:      li a7, 16
            ecall
            ret
close:      li a7, 21
            ecall
            ret

# ---- data

cannot_open: .ascii "cat: cannot open \0"
read_error: .ascii "cat: read error\n\0"
write_error: .ascii "cat: write error\n\0"
line_end:   .ascii "\n\0"
buffer:     .zero 512               # what was read and is to be written
