# A linked list: nodes of sbrk are put in front, the list is turned round, and its values are printed and added.
#
#   struct node { int value; struct node *next; };
.data
comma:    .asciz ", "
newline:  .asciz "\n"
sum_text: .asciz "sum = "
values:   .word 3, 1, 4, 1, 5, 9, 2, 6, 0    # a zero ends them

.text
main:
    li   s0, 0                  # the list: empty
    la   s1, values
read_value:
    lw   s2, 0(s1)
    beqz s2, all_read
    mv   a0, s2
    mv   a1, s0
    jal  ra, push_front
    mv   s0, a0
    addi s1, s1, 4
    j    read_value

all_read:
    mv   a0, s0
    jal  ra, print_list
    mv   a0, s0
    jal  ra, reverse
    mv   s0, a0
    jal  ra, print_list
    la   a0, sum_text
    jal  ra, print_string
    mv   a0, s0
    jal  ra, sum
    jal  ra, print_int
    la   a0, newline
    jal  ra, print_string
    li   a0, 0
    li   a7, 2
    ecall

# push_front(value, list): the new list
push_front:
    mv   t0, a0
    mv   t1, a1
    li   a0, 16
    li   a7, 12                 # sbrk(16): the address of the new bytes
    ecall
    sw   t0, 0(a0)
    sd   t1, 8(a0)
    ret

# reverse(list): the list from its end on
reverse:
    li   t0, 0                  # what is turned already
reverse_loop:
    beqz a0, reverse_done
    ld   t1, 8(a0)
    sd   t0, 8(a0)
    mv   t0, a0
    mv   a0, t1
    j    reverse_loop
reverse_done:
    mv   a0, t0
    ret

# sum(list)
sum:
    mv   t0, a0
    li   a0, 0
sum_loop:
    beqz t0, sum_done
    lw   t1, 0(t0)
    add  a0, a0, t1
    ld   t0, 8(t0)
    j    sum_loop
sum_done:
    ret

print_list:
    addi sp, sp, -16
    sd   ra, 8(sp)
    sd   s0, 0(sp)
    mv   s0, a0
print_node:
    lw   a0, 0(s0)
    jal  ra, print_int
    ld   s0, 8(s0)
    beqz s0, print_end
    la   a0, comma
    jal  ra, print_string
    j    print_node
print_end:
    la   a0, newline
    jal  ra, print_string
    ld   s0, 0(sp)
    ld   ra, 8(sp)
    addi sp, sp, 16
    ret

print_string:
    mv   a1, a0
    mv   t0, a0
1:  lbu  t1, 0(t0)
    addi t0, t0, 1
    bnez t1, 1b
    sub  a2, t0, a1
    addi a2, a2, -1
    li   a0, 1
    li   a7, 16
    ecall
    ret

print_int:
    addi sp, sp, -32
    addi a1, sp, 32
    li   t0, 10
1:  remu t1, a0, t0
    divu a0, a0, t0
    addi t1, t1, '0'
    addi a1, a1, -1
    sb   t1, 0(a1)
    bnez a0, 1b
    addi a2, sp, 32
    sub  a2, a2, a1
    li   a0, 1
    li   a7, 16
    ecall
    addi sp, sp, 32
    ret
