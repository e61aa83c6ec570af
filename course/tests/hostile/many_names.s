# Makes names in the root until none can be made, 5000 at most, each of ten bytes.
start:      la s0, name
            li s1, 5000
next:       addi s3, s0, 9
            mv t0, s1
            li t1, 10
digit:      rem t2, t0, t1
            addi t2, t2, 48
            sb t2, 0(s3)
            div t0, t0, t1
            addi s3, s3, -1
            bne t0, zero, digit
            la a0, old
            mv a1, s0
            jal ra, link
            addi s1, s1, -1
            bne s1, zero, next
            li a0, 0
            jal ra, exit
name:       .ascii "name000000\0"
old:        .ascii "/echo\0"
