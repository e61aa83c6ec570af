# The counter in a file, as counter.c has it: a parent and its child each read it and write it back by one more. The
# status is what it is at the end.
            .include "../assembly/lib.s"
            .equ READ_WRITE, 2
            .equ CREATE, 0x200

start:      li a1, CREATE + READ_WRITE
            call open_number        # a0: the descriptor
            call write_number
            system FORK
            beqz a0, child
            call count
            li a0, 0
            system WAIT
            li a1, READ_WRITE
            call open_number
            la a1, digit
            li a2, 1
            system READ
            lb a0, digit
            addi a0, a0, -48        # '0'
            system EXIT

child:      call count
            exit 0

# Reads the number, adds one, and writes it back.
count:      mv s1, ra
            li a1, READ_WRITE
            call open_number
            mv s0, a0
            la a1, digit
            li a2, 1
            system READ
            mv a0, s0
            system CLOSE
            lb t0, digit            # what was read; an interrupt from here on loses the other's count
            addi t0, t0, 1
            la t1, digit
            sb t0, (t1)
            li a1, READ_WRITE
            call open_number
            mv ra, s1
            j write_number

# Opens the file, in the way that a1 has.
open_number:
            la a0, name
            system OPEN
            ret

# Writes the digit to the descriptor a0, and closes that.
write_number:
            mv s0, a0
            la a1, digit
            li a2, 1
            system WRITE
            mv a0, s0
            system CLOSE
            ret

            .data
name:       .asciz "n"
digit:      .ascii "0"
