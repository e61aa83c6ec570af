# Exercise 5.  The procedure sort, and swap, which it calls.
#
#     void sort (long long int v[], size_t n)
#     {
#         size_t i, j;
#         for (i = 0; i < n; i += 1)
#             for (j = i - 1; j >= 0 && v[j] > v[j + 1]; j -= 1)
#                 swap (v, j);
#     }

        la   x10, v
        li   x11, 10
        jal  x1, sort
        la   s0, v
        la   s1, vend
show:   ld   a0, 0(s0)
        jal  x1, print
        addi s0, s0, 8
        bltu s0, s1, show
        li   a0, 0
        li   a7, 2
        ecall

# ---- swap: v in x10, k in x11
swap:   slli x6, x11, 3         # reg x6 = k * 8
        add  x6, x10, x6        # reg x6 = v + (k * 8)
        ld   x5, 0(x6)          # reg x5 (temp) = v[k]
        ld   x7, 8(x6)          # reg x7 = v[k + 1]
        sd   x7, 0(x6)          # v[k] = reg x7
        sd   x5, 8(x6)          # v[k + 1] = reg x5 (temp)
        jalr x0, 0(x1)          # return to calling routine

# ---- sort
sort:   addi sp, sp, -40        # make room on stack for 5 registers
        sd   x1, 32(sp)
        sd   x22, 24(sp)
        sd   x21, 16(sp)
        sd   x20, 8(sp)
        sd   x19, 0(sp)
        mv   x21, x10           # copy parameter x10 into x21
        mv   x22, x11           # copy parameter x11 into x22
        li   x19, 0             # i = 0
for1tst:
        bge  x19, x22, exit1    # go to exit1 if i >= n
        addi x20, x19, -1       # j = i - 1
for2tst:
        blt  x20, x0, exit2     # go to exit2 if j < 0
        slli x5, x20, 3         # x5 = j * 8
        add  x5, x21, x5        # x5 = v + (j * 8)
        ld   x6, 0(x5)          # x6 = v[j]
        ld   x7, 8(x5)          # x7 = v[j + 1]
        ble  x6, x7, exit2      # go to exit2 if x6 <= x7
        mv   x10, x21           # first swap parameter is v
        mv   x11, x20           # second swap parameter is j
        jal  x1, swap           # call swap
        addi x20, x20, -1       # j -= 1
        j    for2tst
exit2:  addi x19, x19, 1        # i += 1
        j    for1tst
exit1:  ld   x19, 0(sp)
        ld   x20, 8(sp)
        ld   x21, 16(sp)
        ld   x22, 24(sp)
        ld   x1, 32(sp)
        addi sp, sp, 40
        jalr x0, 0(x1)

# ---- print: a0 in decimal, with its sign
print:  addi sp, sp, -32
        addi a1, sp, 31
        li   t0, '\n'
        sb   t0, 0(a1)
        li   t0, 10
        sltz t2, a0             # 1 if it is below 0
        beqz t2, p1
        neg  a0, a0
p1:     remu t1, a0, t0
        divu a0, a0, t0
        addi t1, t1, '0'
        addi a1, a1, -1
        sb   t1, 0(a1)
        bnez a0, p1
        beqz t2, p2
        li   t1, '-'
        addi a1, a1, -1
        sb   t1, 0(a1)
p2:     addi a2, sp, 32
        sub  a2, a2, a1
        li   a0, 1
        li   a7, 16
        ecall
        addi sp, sp, 32
        ret

        .data
        .align 3
v:      .dword 31, -4, 159, 26, 5, -35, 8, 97, 932, 3
vend:
