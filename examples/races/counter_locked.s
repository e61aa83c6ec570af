# The counter, with a pipe as its lock, as counter_locked.c has it: who has read its one byte has the lock, and gives it
# back by writing it. The status is what the counter is at the end.
            .include "../assembly/lib.s"
            .equ READ_WRITE, 2
            .equ CREATE, 0x200

start:      li a1, CREATE + READ_WRITE
            call open_number        # a0: the descriptor
            call write_number
            la a0, lock
            system PIPE
            call give               # nobody has the lock
            system FORK
            beqz a0, child
            call count
            li a0, 0
            system WAIT
            li a1, READ_WRITE
            call open_number
            la a1, digit
            li a2, 1
            system READ
            lb a0, digit
            addi a0, a0, -48        # '0'
            system EXIT

child:      call count
            exit 0

# Takes the lock, reads the number, adds one, writes it back, and gives the lock back.
count:      mv s1, ra
            lw a0, lock
            la a1, key
            li a2, 1
            system READ
            li a1, READ_WRITE
            call open_number
            mv s0, a0
            la a1, digit
            li a2, 1
            system READ
            mv a0, s0
            system CLOSE
            lb t0, digit            # what was read; whom an interrupt lets in waits for the lock
            addi t0, t0, 1
            la t1, digit
            sb t0, (t1)
            li a1, READ_WRITE
            call open_number
            call write_number
            mv ra, s1

# Gives the lock back.
give:       la t0, lock
            lw a0, 4(t0)
            la a1, key
            li a2, 1
            system WRITE
            ret

# Opens the file, in the way that a1 has.
open_number:
            la a0, name
            system OPEN
            ret

# Writes the digit to the descriptor a0, and closes that.
write_number:
            mv s0, a0
            la a1, digit
            li a2, 1
            system WRITE
            mv a0, s0
            system CLOSE
            ret

            .data
name:       .asciz "n"
digit:      .ascii "0"
key:        .ascii "k"
            .bss
            .align 2
lock:       .zero 8
