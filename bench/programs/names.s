# names: ROUNDS times makes FILES files in one directory and writes BYTES bytes to each, opens each, and unlinks each.

            la s1, name             # the names are aaa, baa, .. up to ppp
            li s3, FILES
            li s4, ROUNDS
round:      mv s0, zero
make:       jal ra, spell
            mv a0, s1
            li a1, 0x202            # to read and write, made
            li a7, 15               # open
            ecall
            blt a0, zero, failed
            mv s2, a0               # s2: the descriptor
            la a1, bytes
            li a2, BYTES
            li a7, 16               # write
            ecall
            bne a0, a2, failed
            mv a0, s2
            li a7, 21               # close
            ecall
            bne a0, zero, failed
            addi s0, s0, 1
            bne s0, s3, make

            mv s0, zero
open:       jal ra, spell
            mv a0, s1
            li a1, 0
            li a7, 15               # open
            ecall
            blt a0, zero, failed
            li a7, 21               # close
            ecall
            bne a0, zero, failed
            addi s0, s0, 1
            bne s0, s3, open

            mv s0, zero
unlink:     jal ra, spell
            mv a0, s1
            li a7, 18               # unlink
            ecall
            bne a0, zero, failed
            addi s0, s0, 1
            bne s0, s3, unlink
            addi s4, s4, -1
            bne s4, zero, round
            j exit                  # a0 is 0

failed:     li a0, 1
exit:       li a7, 2
            ecall

# writes the name of number s0: a letter for each four bits
spell:      andi t0, s0, 15
            addi t0, t0, 97
            sb t0, 0(s1)
            srli t0, s0, 4
            andi t0, t0, 15
            addi t0, t0, 97
            sb t0, 1(s1)
            srli t0, s0, 8
            andi t0, t0, 15
            addi t0, t0, 97
            sb t0, 2(s1)
            ret

name:       .ascii "aaa\0"
bytes:      .zero 1024
