# unhex: reads digits of base 16 from descriptor 0, and writes the bytes that they spell, two digits each, to descriptor 1.
#
# Other bytes are passed over. `jal ra, NAME` goes to a function or a call of the kernel, which takes a0, a1, .. and answers in a0, -1
# for a refusal; `ret` comes back.

start:      li s2, -1               # s2: the first digit of a byte, or -1
more:       li a0, 0                # read as much as the buffer holds
            la a1, buffer
            li a2, 128
            jal ra, read
            bge zero, a0, finish    # its end
            la s0, buffer           # s0: the next digit
            add s1, s0, a0          # s1: the end of the digits
            la s3, bytes            # s3: where the next byte goes
next:       beq s0, s1, put
            lbu t0, 0(s0)
            addi s0, s0, 1
            addi t1, t0, -48        # 0 to 9
            li t2, 10
            bltu t1, t2, digit
            addi t1, t0, -97        # a to f
            li t2, 6
            bgeu t1, t2, next
            addi t1, t1, 10
digit:      bge s2, zero, second
            mv s2, t1
            j next
second:     slli s2, s2, 4
            add t1, t1, s2
            sb t1, 0(s3)
            addi s3, s3, 1
            li s2, -1
            j next

put:        la a1, bytes            # write the bytes
            sub a2, s3, a1
            mv s3, a2
            li a0, 1
            jal ra, write
            beq a0, s3, more
            li a0, 1                # not all were taken
            jal ra, exit

finish:     li a0, 0
            jal ra, exit

# ---- calls of the kernel: the number goes into a7

exit:       li a7, 2
            ecall
read:       li a7, 5
            ecall
            ret
write:      li a7, 16
            ecall
            ret

# ---- data

buffer:     .zero 128               # what was read
bytes:      .zero 64                # what is to be written
