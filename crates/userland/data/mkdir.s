# mkdir NAME..: makes directories, up to the first that is refused.
#
# At the start a0 is the number of arguments, the program's name among them, and a1 the address of the list of their
# addresses, which ends with a 0. `jal ra, NAME` calls a function or the kernel: both take a0, a1, .. and return in a0,
# the kernel -1 for a refusal; `ret` returns. A function keeps sp and s0 to s11, a call all registers except a0 and a7.

start:      addi s0, a1, 8          # s0: where the next argument's address is, after that of the program's name
            ld a0, 0(s0)
            beq a0, zero, refused   # one at least has to be there

next:       jal ra, make            # the call mkdir
            blt a0, zero, refused
            addi s0, s0, 8          # the next argument
            ld a0, 0(s0)
            bne a0, zero, next
            li a0, 0                # all went well
            jal ra, exit

refused:    li a0, 2                # print it, and end with status 1
            la a1, message
            jal ra, print
            li a0, 1
            jal ra, exit

# ---- functions

# print(descriptor, text): writes a text that ends with a 0
print:      mv a2, zero             # a2: its length, counted up to the 0
measure:    add t0, a1, a2
            lbu t0, 0(t0)
            beq t0, zero, write     # the call takes it from here, and comes back for this function
            addi a2, a2, 1
            j measure

# ---- calls of the kernel: the number goes into a7

exit:       li a7, 2
            ecall
write:      li a7, 16
            ecall
            ret
make:       li a7, 20
            ecall
            ret

# ---- data

message:    .ascii "mkdir: failed\n\0"
