# fill N FILE: makes a file of N blocks of 1024 bytes, each of which begins and ends with its number, counted from 0.
# fill FILE: reads such a file, and prints how many blocks it has, or which one isn't as it was made.
#
# At the start a0 is the number of arguments, the program's name among them, and a1 the address of the list of their
# addresses, which ends with a 0. `jal ra, NAME` calls a function or the kernel: both take a0, a1, .. and return in a0,
# the kernel -1 for a refusal; `ret` returns. A function keeps sp and s0 to s11, a call all registers except a0 and a7.

start:      mv s3, a1               # s3: where the arguments' addresses are
            mv s2, zero             # s2: the number of the block that comes next
            li t0, 2
            beq a0, t0, check
            li t0, 3
            bne a0, t0, refused

            ld a0, 8(s3)            # how many blocks are wanted
            jal ra, number
            blt a0, zero, refused
            mv s0, a0               # s0: that number
            ld a0, 16(s3)
            li a1, 0x601            # open it to write; it is made, or emptied where it is there already
            jal ra, open
            blt a0, zero, refused
            mv s1, a0               # s1: its descriptor
put:        beq s2, s0, finish
            la a1, block
            sd s2, 0(a1)
            sd s2, 1016(a1)
            mv a0, s1
            li a2, 1024
            jal ra, write
            li t0, 1024
            bne a0, t0, refused     # the disk is full, or the file as long as it can be
            addi s2, s2, 1
            j put

check:      ld a0, 8(s3)
            li a1, 0                # open it to read
            jal ra, open
            blt a0, zero, refused
            mv s1, a0
get:        mv a0, s1
            la a1, block
            li a2, 1024
            jal ra, read
            beq a0, zero, tell      # its end
            li t0, 1024
            bne a0, t0, differs     # less than a block, or none that can be read
            la a1, block
            ld t0, 0(a1)
            bne t0, s2, differs
            ld t0, 1016(a1)
            bne t0, s2, differs
            addi s2, s2, 1
            j get

tell:       la a0, blocks           # their number goes before the word
            mv a1, s2
            jal ra, decimal
            mv a1, a0
            li a0, 1
            jal ra, print

finish:     li a0, 0                # all went well
            jal ra, exit

differs:    li a0, 2                # print which one, and end with status 1
            la a1, wrong_block
            jal ra, print
            la a0, is_other
            mv a1, s2
            jal ra, decimal
            mv a1, a0
            j complain

refused:    la a1, message
complain:   li a0, 2                # a1: what is printed
            jal ra, print
            li a0, 1
            jal ra, exit

# ---- functions

# number(text): the number below 2 to the 31 that the text writes in decimal digits; -1 where it writes none
number:     mv t0, a0               # t0: the text
            mv a0, zero             # a0: the number so far
            li t3, 10               # t3: 10, one more than the last digit
            lui t4, 0x80000         # t4: 2 to the 31; lui alone gives it with a minus
            sub t4, zero, t4
            lbu t1, 0(t0)           # t1: a character
            beq t1, zero, wrong     # no digit at all
digit:      addi t1, t1, -48        # 48 is the digit 0
            bgeu t1, t3, wrong      # no digit
            mul a0, a0, t3
            add a0, a0, t1
            bgeu a0, t4, wrong      # too large
            addi t0, t0, 1          # the next character
            lbu t1, 0(t0)
            bne t1, zero, digit
            ret
wrong:      li a0, -1
            ret

# decimal(end, number): writes a number in decimal digits that end before an address, and returns where they begin
decimal:    li t0, 10
figure:     remu t1, a1, t0         # the last digit
            addi t1, t1, 48         # 48 is the digit 0
            addi a0, a0, -1
            sb t1, 0(a0)
            divu a1, a1, t0         # the digits before it
            bne a1, zero, figure
            ret

# print(descriptor, text): writes a text that ends with a 0
print:      mv a2, zero             # a2: its length, counted up to the 0
measure:    add t0, a1, a2
            lbu t0, 0(t0)
            beq t0, zero, write     # the call takes it from here, and comes back for this function
            addi a2, a2, 1
            j measure

# ---- calls of the kernel: the number goes into a7

exit:       li a7, 2
            ecall
read:       li a7, 5
            ecall
            ret
open:       li a7, 15
            ecall
            ret
write:      li a7, 16
            ecall
            ret

# ---- data

message:    .ascii "fill: failed\n\0"
wrong_block: .ascii "fill: block \0"
            .zero 10                # ten digits at the most
is_other:   .ascii " differs\n\0"
            .zero 10
blocks:     .ascii " blocks\n\0"
            .pad 8
block:      .zero 1024              # what is written, and what was read
