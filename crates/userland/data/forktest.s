# forktest: makes children until a fork is refused, waits for all of them, and prints how many there were.
# Each child ends at once.
#
# At the start a0 is the number of arguments, the program's name among them, and a1 the address of the list of their
# addresses, which ends with a 0. `jal ra, NAME` calls a function or the kernel: both take a0, a1, .. and return in a0,
# the kernel -1 for a refusal; `ret` returns. A function keeps sp and s0 to s11, a call all registers except a0 and a7.

start:      mv s0, zero             # s0: how many children there are

again:      jal ra, fork
            beq a0, zero, finish    # this is a child
            blt a0, zero, waiting   # refused: no more
            addi s0, s0, 1
            j again

waiting:    li a0, 0                # 0: the child's status isn't wanted
            jal ra, wait
            bge a0, zero, waiting   # refused: there is no child left

            la a0, digits           # the count goes after the word
            mv a1, s0
            jal ra, decimal
            li t0, 10               # and a line end after it
            sb t0, 0(a0)
            addi a0, a0, 1
            la a1, line             # the line from its beginning up to there
            sub a2, a0, a1
            li a0, 1
            jal ra, write

finish:     li a0, 0
            jal ra, exit

# ---- functions

# decimal(start, number): writes a number below 100 in decimal digits, and returns the address after them
decimal:    li t0, 10
            mv t1, zero             # t1: the tens
tens:       blt a1, t0, units       # take ten away as often as that goes
            addi a1, a1, -10
            addi t1, t1, 1
            j tens
units:      beq t1, zero, last      # no leading zero
            addi t1, t1, 48         # 48 is the digit 0
            sb t1, 0(a0)
            addi a0, a0, 1
last:       addi a1, a1, 48         # what is left
            sb a1, 0(a0)
            addi a0, a0, 1
            ret

# ---- calls of the kernel: the number goes into a7

fork:       li a7, 1
            ecall
            ret
exit:       li a7, 2
            ecall
wait:       li a7, 3
            ecall
            ret
write:      li a7, 16
            ecall
            ret

# ---- data

line:       .ascii "forked "
digits:     .zero 3                 # two digits and a line end
