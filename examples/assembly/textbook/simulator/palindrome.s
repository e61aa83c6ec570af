# Reads lines and says whether each is a palindrome: blanks and the size of letters don't count.
.data
prompt: .asciz "> "
yes:    .asciz "yes\n"
no:     .asciz "no\n"
line:   .space 100

.text
main:
        la   a0, prompt
        jal  ra, print
        la   a0, line
        li   a1, 100
        jal  ra, read_line
        li   t0, 1
        beq  a0, t0, end            # an empty line ends the program
        la   a1, line
        add  a2, a1, a0
        addi a2, a2, -2             # the last character before the line's end
        mv   a0, a1
        mv   a1, a2
        jal  ra, is_palindrome
        bnez a0, good
        la   a0, no
        jal  ra, print
        j    main
good:
        la   a0, yes
        jal  ra, print
        j    main
end:
        li   a0, 0
        li   a7, 2
        ecall

# is_palindrome(first, last)
is_palindrome:
        addi sp, sp, -32
        sd   ra, 24(sp)
        sd   s0, 16(sp)
        sd   s1, 8(sp)
        mv   s0, a0
        mv   s1, a1
compare:
        bgeu s0, s1, true
        lbu  a0, 0(s0)
        jal  ra, small
        beqz a0, skip_first
        mv   t5, a0
        lbu  a0, 0(s1)
        jal  ra, small
        beqz a0, skip_last
        bne  a0, t5, false
        addi s1, s1, -1
skip_first:
        addi s0, s0, 1
        j    compare
skip_last:
        addi s1, s1, -1
        j    compare
true:
        li   a0, 1
        j    return
false:
        li   a0, 0
return:
        ld   s1, 8(sp)
        ld   s0, 16(sp)
        ld   ra, 24(sp)
        addi sp, sp, 32
        ret

# small(a0): the letter as a small one; 0 if it is no letter
small:
        ori  a0, a0, 0x20
        addi t0, a0, -97
        sltiu t0, t0, 26
        neg  t0, t0
        and  a0, a0, t0
        ret

read_line:                          # a0: buffer, a1: how many bytes it has
        mv   a2, a1
        mv   a1, a0
        li   a0, 0
        li   a7, 5
        ecall
        ret

print:
        mv   a1, a0
        li   a2, 0
1:      add  t0, a1, a2
        lbu  t0, 0(t0)
        beqz t0, 2f
        addi a2, a2, 1
        j    1b
2:      li   a0, 1
        li   a7, 16
        ecall
        ret
