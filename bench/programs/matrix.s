# matrix: the product of two matrices of 32 rows and columns, ROUNDS times. MULTIPLY multiplies a0 by a1.

            la s1, left
            la s2, right            # s2: also the end of the left one
            la s3, product
            li t0, 0
            li t3, 1024
            mv t1, s1
            mv t2, s2
fill:       andi t4, t0, 255
            sd t4, 0(t1)
            andi t4, t0, 63
            sd t4, 0(t2)
            addi t1, t1, 8
            addi t2, t2, 8
            addi t0, t0, 1
            bne t0, t3, fill

            addi s11, s2, 256       # s11: after the first row of the right one
            li s0, ROUNDS
round:      mv s4, s1               # s4: a row
            mv s5, s3               # s5: where the next number goes
row:        mv s6, s2               # s6: a column
            addi s10, s4, 256       # s10: after the row
column:     li s9, 0                # s9: the sum
            mv s7, s4
            mv s8, s6
term:       ld a0, 0(s7)
            ld a1, 0(s8)
            MULTIPLY
            add s9, s9, a0
            addi s7, s7, 8
            addi s8, s8, 256
            bne s7, s10, term
            sd s9, 0(s5)
            addi s5, s5, 8
            addi s6, s6, 8
            bne s6, s11, column
            mv s4, s10
            bne s4, s2, row
            addi s0, s0, -1
            bne s0, zero, round

            li t1, 0                # t1: the sum of the product's numbers
            la t2, end
sum:        ld t3, 0(s3)
            add t1, t1, t3
            addi s3, s3, 8
            bne s3, t2, sum
            la t0, wanted
            ld t0, 0(t0)
            li a0, 0
            beq t0, t1, exit
            li a0, 1
exit:       li a7, 2                # exit
            ecall

# a0 is multiplied by a1: a sum for each bit of a1, as the library of a compiler does it. It changes a1, a2 and a3.
times:      mv a2, a0
            li a0, 0
bit:        andi a3, a1, 1
            beq a3, zero, next
            add a0, a0, a2
next:       srli a1, a1, 1
            slli a2, a2, 1
            bne a1, zero, bit
            ret

            .pad 8
wanted:     .dword WANTED
            .pad 4096
left:       .zero 8192
right:      .zero 8192
product:    .zero 8192
end:
