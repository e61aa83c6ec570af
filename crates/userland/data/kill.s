# kill PID..: ends processes, up to the first number that is refused.
#
# At the start a0 is the number of arguments, the program's name among them, and a1 the address of the list of their
# addresses, which ends with a 0. `jal ra, NAME` calls a function or the kernel: both take a0, a1, .. and return in a0,
# the kernel -1 for a refusal; `ret` returns. A function keeps sp and s0 to s11, a call all registers except a0 and a7.

start:      addi s0, a1, 8          # s0: where the next argument's address is, after that of the program's name
            ld a0, 0(s0)
            beq a0, zero, refused   # one at least has to be there

next:       jal ra, number          # the pid that the argument writes
            blt a0, zero, refused
            jal ra, end             # the call kill
            blt a0, zero, refused   # no such process
            addi s0, s0, 8          # the next argument
            ld a0, 0(s0)
            bne a0, zero, next
            li a0, 0                # all went well
            jal ra, exit

refused:    li a0, 2                # print it, and end with status 1
            la a1, message
            jal ra, print
            li a0, 1
            jal ra, exit

# ---- functions

# number(text): the number below 2 to the 31 that the text writes in decimal digits; -1 where it writes none
number:     mv t0, a0               # t0: the text
            mv a0, zero             # a0: the number so far
            li t3, 10               # t3: 10, one more than the last digit
            lui t4, 0x80000         # t4: 2 to the 31, from which on there are no pids; lui alone gives it with a minus
            sub t4, zero, t4
            lbu t1, 0(t0)           # t1: a character
            beq t1, zero, wrong     # no digit at all
digit:      addi t1, t1, -48        # 48 is the digit 0
            bgeu t1, t3, wrong      # no digit
            slli t2, a0, 3          # eight times the number and twice the number are ten times the number
            slli a0, a0, 1
            add a0, a0, t2
            add a0, a0, t1          # and the digit
            bgeu a0, t4, wrong      # too large
            addi t0, t0, 1          # the next character
            lbu t1, 0(t0)
            bne t1, zero, digit
            ret
wrong:      li a0, -1
            ret

# print(descriptor, text): writes a text that ends with a 0
print:      mv a2, zero             # a2: its length, counted up to the 0
measure:    add t0, a1, a2
            lbu t0, 0(t0)
            beq t0, zero, write     # the call takes it from here, and comes back for this function
            addi a2, a2, 1
            j measure

# ---- calls of the kernel: the number goes into a7

exit:       li a7, 2
            ecall
end:        li a7, 6
            ecall
            ret
write:      li a7, 16
            ecall
            ret

# ---- data

message:    .ascii "kill: failed\n\0"
