"""Small random programs of two or three processes, as texts for `xv6 as`: files, pipes, kill, sleep, exec, faults."""
import random

HEAD = """\
            .include "lib.s"
            .equ KILL, 6
            .equ DUP, 10
            .equ GETPID, 11
            .equ SLEEP, 13
            .equ UNLINK, 18
            .equ LINK, 19
            .equ MKDIR, 20

start:      call open_console
            la a0, ends
            system PIPE
            la a0, name
            li a1, 0x202
            system OPEN
            la a1, digit
            li a2, 1
            system WRITE
"""

TAIL = """
# Reads the digit of the file, and writes it back by one more.
count:      la a0, name
            li a1, 2
            system OPEN
            mv s0, a0
            la a1, digit
            li a2, 1
            system READ
            mv a0, s0
            system CLOSE
            lb t0, digit
            addi t0, t0, 1
            la t1, digit
            sb t0, (t1)
            la a0, name
            li a1, 2
            system OPEN
            mv s0, a0
            la a1, digit
            li a2, 1
            system WRITE
            mv a0, s0
            system CLOSE
            ret

            .data
name:       .asciz "n"
other:      .asciz "m"
folder:     .asciz "d"
program:    .asciz "/other"
digit:      .ascii "0"
letters:    .ascii "abcdefgh"
            .align 3
arguments:  .dword program, 0
            .bss
            .align 2
ends:       .zero 8
byte:       .zero 4
status:     .zero 4
"""

# A second program: it ends with a status.
OTHER = """\
start:      li a0, 9
            li a7, 2
            ecall
"""


def acts_of(chance, who):
    """Some lines that a process does; `who` is 0 for the parent, else the number of a child."""
    letter = chance.randint(0, 7)
    pid = chance.randint(2, 3)
    return chance.choice([
        ["call count"],
        ["call count"],
        ["lw a0, ends", "la a1, byte", "li a2, 1", "system READ"],
        ["la t0, ends", "lw a0, 4(t0)", f"la a1, letters", f"addi a1, a1, {letter}", "li a2, 1", "system WRITE"],
        ["li a0, 0", "la a1, letters", f"addi a1, a1, {letter}", "li a2, 1", "system WRITE"],
        ["la a0, other", "li a1, 0x202", "system OPEN"],
        ["la a0, other", "system UNLINK"],
        ["la a0, name", "la a1, other", "system LINK"],
        ["la a0, folder", "system MKDIR"],
        [f"li a0, {pid}", "system KILL"],
        ["li a0, 1", "system SLEEP"],
        ["system GETPID", "system DUP"],
        ["la t0, ends", "lw a0, 4(t0)", "system CLOSE"],
        ["li t0, 0x7000000", "ld a0, (t0)"] if who else ["lw a0, ends", "system CLOSE"],
        ["la a0, program", "la a1, arguments", "system EXEC"] if who else ["li a0, 4096", "system SBRK"],
    ])


def text_of(seed):
    """The text of a program."""
    chance = random.Random(seed)
    children = 2 if seed % 5 == 0 else 1
    acts = 2 if children == 2 else 4
    lines = []
    for child in range(1, children + 1):
        lines += ["system FORK", f"beqz a0, child_{child}"]
    for _ in range(chance.randint(0, acts)):
        lines += acts_of(chance, 0)
    for _ in range(children):
        lines += ["la a0, status", "system WAIT"]
    lines += ["lw a0, status", "system EXIT"]
    for child in range(1, children + 1):
        lines.append(f"child_{child}:")
        for _ in range(chance.randint(1, acts)):
            lines += acts_of(chance, child)
        lines += [f"li a0, {child}", "system EXIT"]
    body = "\n".join(line if line.endswith(":") else " " * 12 + line for line in lines)
    return HEAD + body + "\n" + TAIL
