# The calls of the kernel, which the runner puts after each text of this folder:
# `jal ra, NAME`, with arguments and result in a0, a1 and a2.
            .pad 4
fork:       li a7, 1
            ecall
            ret
exit:       li a7, 2
            ecall
            ret
wait:       li a7, 3
            ecall
            ret
pipe:       li a7, 4
            ecall
            ret
read:       li a7, 5
            ecall
            ret
kill:       li a7, 6
            ecall
            ret
exec:       li a7, 7
            ecall
            ret
fstat:      li a7, 8
            ecall
            ret
chdir:      li a7, 9
            ecall
            ret
dup:        li a7, 10
            ecall
            ret
getpid:     li a7, 11
            ecall
            ret
sbrk:       li a7, 12
            ecall
            ret
sleep:      li a7, 13
            ecall
            ret
uptime:     li a7, 14
            ecall
            ret
open:       li a7, 15
            ecall
            ret
write:      li a7, 16
            ecall
            ret
mknod:      li a7, 17
            ecall
            ret
unlink:     li a7, 18
            ecall
            ret
link:       li a7, 19
            ecall
            ret
mkdir:      li a7, 20
            ecall
            ret
close:      li a7, 21
            ecall
            ret
