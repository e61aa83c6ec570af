# Bubble sort: sorts an array of words and prints it before and after.
        .data
array:  .word 64, 34, 25, 12, 22, 11, 90, -5
length: .word 8
before: .asciz "Before: "
after:  .asciz "After:  "
space:  .asciz " "
newline: .asciz "\n"

        .text
        .globl main
main:
        la   a0, before
        jal  print_string
        jal  print_array

        la   a0, array
        lw   a1, length
        jal  bubble_sort

        la   a0, after
        jal  print_string
        jal  print_array
        li   a0, 0
        jal  exit

#-----------------------------------------------------------
# bubble_sort
#   a0: address of the array    a1: number of elements
#-----------------------------------------------------------
bubble_sort:
        addi t0, a1, -1             # t0 = how many comparisons this pass makes
outer_loop:
        blez t0, sorted
        mv   t1, a0                 # t1 = address of the current element
        mv   t2, t0
        li   t5, 0                  # t5 = 1 once something was swapped
inner_loop:
        lw   t3, 0(t1)
        lw   t4, 4(t1)
        ble  t3, t4, no_swap
        sw   t4, 0(t1)
        sw   t3, 4(t1)
        li   t5, 1
no_swap:
        addi t1, t1, 4
        addi t2, t2, -1
        bnez t2, inner_loop
        beqz t5, sorted             # nothing was swapped
        addi t0, t0, -1
        j    outer_loop
sorted:
        ret

print_array:
        addi sp, sp, -24
        sd   ra, 16(sp)
        sd   s0, 8(sp)
        sd   s1, 0(sp)
        la   s0, array
        lw   s1, length
print_next:
        lw   a0, 0(s0)
        jal  print_int
        la   a0, space
        jal  print_string
        addi s0, s0, 4
        addi s1, s1, -1
        bgtz s1, print_next
        la   a0, newline
        jal  print_string
        ld   s1, 0(sp)
        ld   s0, 8(sp)
        ld   ra, 16(sp)
        addi sp, sp, 24
        ret

# ---- the calls that a simulator has by numbers: 4, 1 and 10

print_string:                       # a0: a string with a zero after it
        mv   a1, a0
        li   a2, 0
string_length:
        add  t0, a1, a2
        lb   t0, 0(t0)
        beqz t0, string_out
        addi a2, a2, 1
        j    string_length
string_out:
        li   a0, 1
        li   a7, 16
        ecall
        ret

print_int:                          # a0: a number with its sign
        addi sp, sp, -32
        addi a1, sp, 32
        mv   t2, a0
        bgez a0, int_digit
        neg  a0, a0
int_digit:
        li   t0, 10
        rem  t1, a0, t0
        div  a0, a0, t0
        addi t1, t1, '0'
        addi a1, a1, -1
        sb   t1, 0(a1)
        bnez a0, int_digit
        bgez t2, int_out
        li   t1, '-'
        addi a1, a1, -1
        sb   t1, 0(a1)
int_out:
        addi a2, sp, 32
        sub  a2, a2, a1
        li   a0, 1
        li   a7, 16
        ecall
        addi sp, sp, 32
        ret

exit:                               # a0: the status
        li   a7, 2
        ecall
