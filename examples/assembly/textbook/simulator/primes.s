# The sieve of Eratosthenes: prints the primes below 100.
        .eqv LIMIT, 100
        .extern errno 4

        .data
sieve:  .space LIMIT
space:  .byte ' '
line:   .byte '\n'

        .text
main:   la   s0, sieve
        li   s1, LIMIT
        li   s2, 2              # the number
sieve_loop:
        bge  s2, s1, finished
        add  t0, s0, s2
        lbu  t1, 0(t0)
        bnez t1, sieve_next     # it was struck out
        mv   a0, s2
        jal  print_int
        mul  t0, s2, s2         # strike out its multiples, from the square on
strike: bge  t0, s1, sieve_next
        add  t1, s0, t0
        li   t2, 1
        sb   t2, 0(t1)
        add  t0, t0, s2
        j    strike
sieve_next:
        addi s2, s2, 1
        j    sieve_loop
finished:
        la   a1, line
        jal  write_one
        li   a0, 0
        li   a7, 2
        ecall

print_int:
        addi sp, sp, -32
        sd   ra, 24(sp)
        addi a1, sp, 24
        li   t0, 10
1:      remu t1, a0, t0
        divu a0, a0, t0
        addi t1, t1, 48
        addi a1, a1, -1
        sb   t1, 0(a1)
        bnez a0, 1b
        addi a2, sp, 24
        sub  a2, a2, a1
        li   a0, 1
        li   a7, 16
        ecall
        la   a1, space
        jal  write_one
        ld   ra, 24(sp)
        addi sp, sp, 32
        ret

write_one:
        li   a0, 1
        li   a2, 1
        li   a7, 16
        ecall
        ret
