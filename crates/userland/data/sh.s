# sh: reads lines, and runs the programs that they name.
#
#     line:  part | part | ..      each part is a child, whose output the next one reads; or: cd DIR
#     part:  WORD.. < FILE > FILE  a program with its arguments, what it reads from and what it writes to
#
# Words are separated by blanks; <, > and | are words of their own. A line has at most 100 bytes and 10 words.
#
# At the start a0 is the number of arguments, the program's name among them, and a1 the address of the list of their
# addresses, which ends with a 0. `jal ra, NAME` calls a function or the kernel: both take a0, a1, .. and return in a0,
# the kernel -1 for a refusal; `ret` returns. A function keeps sp and s0 to s11, a call all registers except a0 and a7.

start:      li a0, 2                # the prompt goes to descriptor 2
            la a1, prompt
            jal ra, print
            jal ra, read_line
            beq a0, zero, quit      # nothing came any more
            jal ra, split
            la t0, words
            ld a0, 0(t0)
            beq a0, zero, start     # a line without words
            la a1, cd               # is its first word cd?
            jal ra, is_same
            bne a0, zero, change
            jal ra, run             # else it names programs
            j start

quit:       li a0, 0
            jal ra, exit

# cd DIR is done here, since a child could change only its own directory
change:     la s0, words
            ld a0, 8(s0)            # the directory, the second word
            beq a0, zero, start
            jal ra, chdir
            bge a0, zero, start
            la a0, cannot_cd        # refused
            ld a1, 8(s0)
            la a2, line_end
            jal ra, complain
            j start

# ---- a line and its words

# read_line(): reads a line into `line`, byte by byte, with a 0 after it; returns 0 where nothing came
read_line:  addi sp, sp, -32        # what is kept for the caller goes on the stack
            sd ra, 0(sp)
            sd s0, 8(sp)
            sd s1, 16(sp)
            la s0, line             # s0: where the next byte goes
            addi s1, s0, 100        # s1: the end of the room for it
read_byte:  beq s0, s1, line_read   # it is full
            li a0, 0                # read one byte of descriptor 0
            mv a1, s0
            li a2, 1
            jal ra, read
            bge zero, a0, line_read # the end of what is read
            lbu t0, 0(s0)
            addi s0, s0, 1
            li t1, 10               # a line end is the last byte of a line
            bne t0, t1, read_byte
line_read:  sb zero, 0(s0)
            la t0, line
            sub a0, s0, t0          # how many bytes came
            ld ra, 0(sp)            # as the caller had them
            ld s0, 8(sp)
            ld s1, 16(sp)
            addi sp, sp, 32
            ret

# split(): puts the words of `line`, each with a 0 after it, into `text`, and their addresses into `words`, with a 0
# after the last. Words past the tenth are dropped.
split:      la t0, line             # t0: what is read
            la t1, text             # t1: where the next byte of a word goes
            la t2, words            # t2: where the next address goes
            addi t3, t2, 80         # t3: the end of the room for them
skip:       lbu t4, 0(t0)           # t4: the byte that is read
            addi t0, t0, 1
            li t5, 32               # blanks are passed over
            beq t4, t5, skip
            beq t4, zero, split_end # the line's end
            li t5, 10
            beq t4, t5, split_end
            beq t2, t3, split_end   # ten words
            sd t1, 0(t2)            # a word begins
            addi t2, t2, 8
            sb t4, 0(t1)
            addi t1, t1, 1
            li t5, 60               # <, > and | end at once
            beq t4, t5, word_end
            li t5, 62
            beq t4, t5, word_end
            li t5, 124
            beq t4, t5, word_end
letter:     lbu t4, 0(t0)           # others go on up to a blank, one of these, or the line's end
            beq t4, zero, word_end
            li t5, 10
            beq t4, t5, word_end
            li t5, 32
            beq t4, t5, word_end
            li t5, 60
            beq t4, t5, word_end
            li t5, 62
            beq t4, t5, word_end
            li t5, 124
            beq t4, t5, word_end
            sb t4, 0(t1)            # a byte of the word
            addi t1, t1, 1
            addi t0, t0, 1
            j letter
word_end:   sb zero, 0(t1)
            addi t1, t1, 1
            j skip
split_end:  sd zero, 0(t2)          # no more words
            ret

# ---- running a line

# run(): starts a child for each part of the line, and waits for all of them
run:        addi sp, sp, -64        # what is kept for the caller, and eight bytes at 48(sp)
            sd ra, 0(sp)
            sd s0, 8(sp)
            sd s1, 16(sp)
            sd s2, 24(sp)
            sd s3, 32(sp)
            sd s4, 40(sp)
            la s0, words            # s0: where the part's words are
            mv s1, zero             # s1: what it reads from, where that is a pipe: its read end; else 0
            mv s2, zero             # s2: how many children there are

part:       mv s3, s0               # s3: where the part ends
find_end:   ld t0, 0(s3)
            mv s4, zero             # s4: whether a part follows
            beq t0, zero, end_found # the line has no more words
            lbu t0, 0(t0)
            li t1, 124              # only the word | begins with one
            beq t0, t1, bar_found
            addi s3, s3, 8          # the next word
            j find_end
bar_found:  li s4, 1
            sd zero, 0(s3)          # the part's words end here
            la a0, ends             # a pipe from this part to the next
            jal ra, pipe
            blt a0, zero, no_ends
end_found:  jal ra, fork
            beq a0, zero, child     # this is the child
            blt a0, zero, no_child
            addi s2, s2, 1

            beq s1, zero, kept      # what the child took over isn't the shell's any more
            mv a0, s1
            jal ra, close
kept:       beq s4, zero, wait_all  # it was the last part
            la t0, ends
            lw s1, 0(t0)            # the next part reads from this pipe
            lw a0, 4(t0)            # nobody but the child writes to it
            jal ra, close
            addi s0, s3, 8          # its words follow the bar
            j part

wait_all:   beq s2, zero, run_end   # for each child once
            li a0, 0
            jal ra, wait
            addi s2, s2, -1
            j wait_all
run_end:    ld ra, 0(sp)            # as the caller had them
            ld s0, 8(sp)
            ld s1, 16(sp)
            ld s2, 24(sp)
            ld s3, 32(sp)
            ld s4, 40(sp)
            addi sp, sp, 64
            ret

no_child:   la a0, no_fork          # no room for a child: the ends of the pipe after the part are given back
            beq s4, zero, stop      # there is no pipe after the last part
            sd a0, 48(sp)           # closing takes a0
            la t0, ends
            lw a0, 0(t0)
            jal ra, close
            la t0, ends
            lw a0, 4(t0)
            jal ra, close
            ld a0, 48(sp)
            j stop
no_ends:    la a0, no_pipe
stop:       la a1, nothing          # a0: what is printed
            la a2, line_end
            jal ra, complain
            beq s1, zero, wait_all  # the children that there are find the end of what they read or write
            mv a0, s1
            jal ra, close
            j wait_all

# The child: it takes its descriptors over, and becomes the program. dup gives the lowest descriptor that is free, which
# is the one that was just closed.
child:      beq s1, zero, reads
            li a0, 0                # descriptor 0 is the pipe before it
            jal ra, close
            mv a0, s1
            jal ra, dup
            mv a0, s1               # under one number is enough
            jal ra, close
reads:      beq s4, zero, writes
            li a0, 1                # descriptor 1 is the pipe after it
            jal ra, close
            la t0, ends
            lw a0, 4(t0)
            jal ra, dup
            la t0, ends             # the next part reads from it, and not this one
            lw a0, 0(t0)
            jal ra, close
            la t0, ends
            lw a0, 4(t0)
            jal ra, close

writes:     la s2, words            # s2: where the next argument's address goes, never after the word that is read
            mv s3, s2               # s3: where they begin
word:       ld s1, 0(s0)            # s1: the word
            beq s1, zero, words_read
            addi s0, s0, 8
            lbu t0, 0(s1)
            li t1, 60               # <
            beq t0, t1, input
            li t1, 62               # >
            beq t0, t1, output
            sd s1, 0(s2)            # any other is an argument
            addi s2, s2, 8
            j word

input:      li a0, 0                # < FILE: descriptor 0 is the file
            jal ra, close
            li a1, 0
            j redirect
output:     li a0, 1                # > FILE: descriptor 1 is the file: to write only, made if it is missing, emptied
            jal ra, close
            li a1, 0x601
redirect:   ld a0, 0(s0)            # the name
            addi s0, s0, 8
            beq a0, zero, no_name
            mv s1, a0               # s1: the name, which is printed where it can't be opened
            jal ra, open            # this too gives the lowest descriptor that is free
            bge a0, zero, word
            la a0, open_word
            j give_up
no_name:    la a0, missing
            la a1, nothing
            la a2, line_end
            jal ra, complain
            j fail

words_read: sd zero, 0(s2)          # no more arguments
            ld s1, 0(s3)            # s1: the program's name
            beq s1, zero, fail      # none
            mv a0, s1
            mv a1, s3
            jal ra, exec
            la a0, exec_word        # back here only if there is no such program
give_up:    mv a1, s1
            la a2, failed
            jal ra, complain
fail:       li a0, 1
            jal ra, exit

# ---- functions

# complain(a, b, c): prints three texts to descriptor 2
complain:   addi sp, sp, -32        # print changes a1 and a2
            sd ra, 0(sp)
            sd a1, 8(sp)
            sd a2, 16(sp)
            mv a1, a0               # the first
            li a0, 2
            jal ra, print
            li a0, 2
            ld a1, 8(sp)
            jal ra, print
            li a0, 2
            ld a1, 16(sp)
            jal ra, print
            ld ra, 0(sp)
            addi sp, sp, 32
            ret

# is_same(a, b): 1 where two texts have the same bytes up to their 0, else 0
is_same:    lbu t0, 0(a0)
            lbu t1, 0(a1)
            bne t0, t1, differ
            beq t0, zero, same      # both end here
            addi a0, a0, 1          # the next bytes
            addi a1, a1, 1
            j is_same
same:       li a0, 1
            ret
differ:     li a0, 0
            ret

# print(descriptor, text): writes a text that ends with a 0
print:      mv a2, zero             # a2: its length, counted up to the 0
measure:    add t0, a1, a2
            lbu t0, 0(t0)
            beq t0, zero, write     # the call takes it from here, and comes back for this function
            addi a2, a2, 1
            j measure

# ---- calls of the kernel: the number goes into a7

fork:       li a7, 1
            ecall
            ret
exit:       li a7, 2
            ecall
wait:       li a7, 3
            ecall
            ret
pipe:       li a7, 4
            ecall
            ret
read:       li a7, 5
            ecall
            ret
exec:       li a7, 7
            ecall
            ret
chdir:      li a7, 9
            ecall
            ret
dup:        li a7, 10
            ecall
            ret
open:       li a7, 15
            ecall
            ret
write:      li a7, 16
            ecall
            ret
close:      li a7, 21
            ecall
            ret

# ---- data

prompt:     .ascii "$ \0"
cd:         .ascii "cd\0"
cannot_cd:  .ascii "cannot cd \0"
exec_word:  .ascii "exec \0"
open_word:  .ascii "open \0"
failed:     .ascii " failed\n\0"
no_fork:    .ascii "no room for a child\0"
no_pipe:    .ascii "no room for a pipe\0"
missing:    .ascii "a file's name is missing\0"
line_end:   .ascii "\n\0"
nothing:    .ascii "\0"
line:       .zero 101               # 100 bytes and a 0
text:       .zero 200               # at most as many words of one byte, each with its 0
            .pad 8
words:      .zero 88                # ten addresses and a 0
ends:       .zero 8                 # a pipe's two descriptors
