# mix: a first process that does each instruction of arithmetic on each pair of a table of odd numbers, and each load and store.
#
# s0 is the address of the first number, s1 that of the second, s2 the table's end; a0 and a1 are the numbers.

start:      la s0, numbers
            la s2, end
first:      la s1, numbers
second:     ld a0, 0(s0)
            ld a1, 0(s1)
            jal ra, sums
            jal ra, products
            jal ra, words
            jal ra, constants
            jal ra, bytes
            jal ra, branches
            addi s1, s1, 8
            bne s1, s2, second
            addi s0, s0, 8
            bne s0, s2, first
            li a0, 0
            li a7, 2                # exit
            ecall

sums:       add t0, a0, a1
            sub t0, a0, a1
            sll t0, a0, a1
            slt t0, a0, a1
            sltu t0, a0, a1
            xor t0, a0, a1
            srl t0, a0, a1
            sra t0, a0, a1
            or t0, a0, a1
            and t0, a0, a1
            ret

products:   mul t0, a0, a1
            mulh t0, a0, a1
            mulhsu t0, a0, a1
            mulhu t0, a0, a1
            div t0, a0, a1
            divu t0, a0, a1
            rem t0, a0, a1
            remu t0, a0, a1
            ret

words:      addw t0, a0, a1
            subw t0, a0, a1
            sllw t0, a0, a1
            srlw t0, a0, a1
            sraw t0, a0, a1
            mulw t0, a0, a1
            divw t0, a0, a1
            divuw t0, a0, a1
            remw t0, a0, a1
            remuw t0, a0, a1
            ret

constants:  addi t0, a0, -2048
            slti t0, a0, -1
            sltiu t0, a0, -1
            xori t0, a0, 2047
            ori t0, a0, -5
            andi t0, a0, -256
            slli t0, a0, 63
            srli t0, a0, 33
            srai t0, a0, 33
            addiw t0, a0, -2048
            slliw t0, a0, 31
            srliw t0, a0, 5
            sraiw t0, a0, 5
            lui t0, 524288
            auipc t0, 1
            ret

bytes:      la t1, room
            sd a0, 0(t1)
            sw a1, 4(t1)
            sh a0, 2(t1)
            sb a1, 1(t1)
            ld t0, 0(t1)
            lw t0, 4(t1)
            lwu t0, 4(t1)
            lh t0, 2(t1)
            lhu t0, 2(t1)
            lb t0, 1(t1)
            lbu t0, 1(t1)
            ret

branches:   beq a0, a1, not_equal
            addi t0, zero, 1
not_equal:  bne a0, a1, equal
            addi t0, zero, 2
equal:      blt a0, a1, not_less
            addi t0, zero, 3
not_less:   bge a0, a1, less
            addi t0, zero, 4
less:       bltu a0, a1, not_below
            addi t0, zero, 5
not_below:  bgeu a0, a1, below
            addi t0, zero, 6
below:      ret

            .pad 8
room:       .zero 8
numbers:    .dword 0
            .dword 1
            .dword 2
            .dword 31
            .dword 37
            .dword 63
            .dword 0x7fffffff
            .dword 0x80000000
            .dword 0xffffffff
            .dword 0x123456789abcdef0
            .dword 0x7fffffffffffffff
            .dword 0x8000000000000000
            .dword 0xffffffff80000000
            .dword 0xfffffffffffffffe
            .dword 0xffffffffffffffff
end:        .dword 0
