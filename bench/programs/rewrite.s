# rewrite: ROUNDS times makes or empties a file, writes LENGTH bytes to it in pieces of PIECE bytes, and reads them back in
# such pieces. A piece starts with a number of its own, by which it is known again. AFTER is `remove` where the file is then
# removed, and else `next`.

            li s0, ROUNDS           # s0: rounds left
            la s1, piece            # s1: what is written and read
            li s2, PIECE
            mv s3, zero             # s3: the number of the next piece that is written
            mv s4, zero             # s4: that of the next one that is read
round:      la a0, name
            li a1, 0x602            # to read and write, made where it is missing, emptied
            li a7, 15               # open
            ecall
            blt a0, zero, failed
            mv s5, a0               # s5: the descriptor
            li s6, LENGTH           # s6: bytes left
write:      beq s6, zero, written
            mv a0, s5
            mv a1, s1
            mv a2, s2
            bgeu s6, s2, whole
            mv a2, s6               # the last piece is shorter
whole:      sub s6, s6, a2
            sd s3, 0(s1)
            addi s3, s3, 1
            li a7, 16               # write
            ecall
            bne a0, a2, failed
            j write
written:    mv a0, s5
            li a7, 21               # close
            ecall
            bne a0, zero, failed

            la a0, name
            li a1, 0                # to read
            li a7, 15               # open
            ecall
            blt a0, zero, failed
            mv s5, a0
            li s6, LENGTH
read:       mv a0, s5
            mv a1, s1
            mv a2, s2
            li a7, 5                # read
            ecall
            blt a0, zero, failed
            beq a0, zero, done
            sub s6, s6, a0
            ld t0, 0(s1)
            bne t0, s4, failed
            addi s4, s4, 1
            j read
done:       bne s6, zero, failed
            bne s3, s4, failed
            mv a0, s5
            li a7, 21               # close
            ecall
            bne a0, zero, failed
            j AFTER
remove:     la a0, name
            li a7, 18               # unlink
            ecall
            bne a0, zero, failed
next:       addi s0, s0, -1
            bne s0, zero, round
            j exit                  # a0 is 0

failed:     li a0, 1
exit:       li a7, 2
            ecall

name:       .ascii "file\0"
            .pad 4096
piece:      .zero 4096
