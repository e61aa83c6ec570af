# count: makes the file `number` with the digit 0, and a child. Both add one to it four times: each time they read it
# and write it back, and a timer interrupt in between may lose what the other one added. Then it prints the digit: 8,
# if none is lost.
#
# `jal ra, NAME` goes to a function or a call of the kernel, which takes a0, a1, .. and returns in a0; `ret` comes back.

start:      la a0, name             # the file is made, or emptied
            li a1, 0x601
            jal ra, open
            mv s0, a0
            la a1, digit
            li t0, 48
            sb t0, 0(a1)
            li a2, 1
            jal ra, write
            mv a0, s0
            jal ra, close

            jal ra, fork
            mv s1, a0               # s1: 0 in the child
            li s4, 4                # s4: how often there is something to add
again:      jal ra, add
            addi s4, s4, -1
            bne s4, zero, again
            beq s1, zero, finish
            li a0, 0                # the parent waits for the child
            jal ra, wait

            jal ra, take            # and prints what came of it
            la a1, digit
            li t0, 10
            sb t0, 1(a1)
            li a0, 1
            li a2, 2
            jal ra, write
finish:     li a0, 0
            jal ra, exit

# take(): reads the file's digit
take:       mv s3, ra
            la a0, name
            li a1, 0
            jal ra, open
            mv s0, a0
            la a1, digit
            li a2, 1
            jal ra, read
            mv a0, s0
            jal ra, close
            mv ra, s3
            ret

# add(): adds one to it
add:        mv s2, ra
            jal ra, take
            la a1, digit
            lbu t0, 0(a1)
            addi t0, t0, 1
            sb t0, 0(a1)
            la a0, name             # the file is opened to be written
            li a1, 1
            jal ra, open
            mv s0, a0
            la a1, digit
            li a2, 1
            jal ra, write
            mv a0, s0
            jal ra, close
            mv ra, s2
            ret

# ---- calls of the kernel: the number goes into a7

fork:       li a7, 1
            ecall
            ret
exit:       li a7, 2
            ecall
wait:       li a7, 3
            ecall
            ret
read:       li a7, 5
            ecall
            ret
open:       li a7, 15
            ecall
            ret
write:      li a7, 16
            ecall
            ret
close:      li a7, 21
            ecall
            ret

# ---- data

name:       .ascii "number"
            .zero 1
digit:      .zero 2                 # and a line end
