# meet: two pipes with a byte each are two locks. The parent takes the first one and then the second one, its child the
# second one and then the first one. Then each puts both back, and prints its letter.
#
# `jal ra, NAME` goes to a call of the kernel, which takes a0, a1, .. and returns in a0; `ret` comes back.

start:      la a0, first            # both locks are free: a byte is in each
            jal ra, pipe
            la a0, second
            jal ra, pipe
            la s0, first
            la s1, second
            lw a0, 4(s0)
            jal ra, put
            lw a0, 4(s1)
            jal ra, put
            li s2, 112              # s2: the letter, p
            jal ra, fork
            mv s3, a0               # s3: 0 in the child
            bne s3, zero, work
            mv t0, s0               # which takes them in the other order
            mv s0, s1
            mv s1, t0
            li s2, 99               # c

work:       lw a0, 0(s0)            # take one, and the other one
            jal ra, get
            lw a0, 0(s1)
            jal ra, get
            lw a0, 4(s1)            # put both back
            jal ra, put
            lw a0, 4(s0)
            jal ra, put
            la a1, byte
            sb s2, 0(a1)
            li t0, 10
            sb t0, 1(a1)
            li a0, 1
            li a2, 2
            jal ra, write
            beq s3, zero, finish
            li a0, 0
            jal ra, wait
finish:     li a0, 0
            jal ra, exit

# put(a0), get(a0): a byte goes into a pipe, or comes out of it
put:        la a1, byte
            li a2, 1
            j write
get:        la a1, byte
            li a2, 1
            j read

# ---- calls of the kernel: the number goes into a7

fork:       li a7, 1
            ecall
            ret
exit:       li a7, 2
            ecall
wait:       li a7, 3
            ecall
            ret
pipe:       li a7, 4
            ecall
            ret
read:       li a7, 5
            ecall
            ret
write:      li a7, 16
            ecall
            ret

# ---- data

            .pad 8
first:      .zero 8                 # the ends of each pipe: to read, to write
second:     .zero 8
byte:       .zero 2
