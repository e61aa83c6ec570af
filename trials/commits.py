#!/usr/bin/env python3
"""commits.py PROGRAM: runs processes again by their log of commits alone, with a simulator of RV64IM that is written here.

`PROGRAM trace --commits` writes a line for each instruction that is done, and comments for what the kernel does. The simulator does what the
comments say, does each instruction by itself, and compares the line that comes of it with the log's, byte by byte. The log is of a
session at a shell on an image of user/, with interrupts. The status is 0 where each line agrees.
"""
import pathlib
import re
import subprocess
import sys
import tempfile

ROOT = pathlib.Path(__file__).resolve().parent.parent
USER = ROOT / "user"
PAGE = 4096
MASK = (1 << 64) - 1
ECALL = 0x73
TYPED = ["echo hi | cat", "ls", "mkdir d", "echo a b > d/f", "cat < d/f | cat", "ln d/f g", "rm d/f", "nope", "kill 9", "cat g; echo e &"]
CALLS = {"fork": 1, "exit": 2, "wait": 3, "pipe": 4, "read": 5, "kill": 6, "exec": 7, "fstat": 8, "chdir": 9, "dup": 10, "getpid": 11,
         "sbrk": 12, "sleep": 13, "uptime": 14, "open": 15, "write": 16, "mknod": 17, "unlink": 18, "link": 19, "mkdir": 20, "close": 21}


def fail(*words):
    print("commits:", *words, file=sys.stderr)
    sys.exit(1)


def signed(value, bits=64):
    """The number of these low bits in two's complement."""
    value &= (1 << bits) - 1
    return value - (1 << bits) if value >> (bits - 1) else value


def quotient(a, b):
    """A quotient that is rounded to 0."""
    return abs(a) // abs(b) * (-1 if (a < 0) != (b < 0) else 1)


def divided(a, b, rest):
    if b == 0:
        return a if rest else -1
    return a - quotient(a, b) * b if rest else quotient(a, b)


# What the operations on two registers or a register and a number give, by funct7 and funct3.
ALU = {
    (0, 0): lambda a, b: a + b, (0x20, 0): lambda a, b: a - b, (0, 1): lambda a, b: a << (b & 63),
    (0, 2): lambda a, b: signed(a) < signed(b), (0, 3): lambda a, b: a < b, (0, 4): lambda a, b: a ^ b,
    (0, 5): lambda a, b: a >> (b & 63), (0x20, 5): lambda a, b: signed(a) >> (b & 63),
    (0, 6): lambda a, b: a | b, (0, 7): lambda a, b: a & b,
    (1, 0): lambda a, b: a * b, (1, 1): lambda a, b: (signed(a) * signed(b)) >> 64, (1, 2): lambda a, b: (signed(a) * b) >> 64,
    (1, 3): lambda a, b: (a * b) >> 64, (1, 4): lambda a, b: divided(signed(a), signed(b), False), (1, 5): lambda a, b: divided(a, b, False),
    (1, 6): lambda a, b: divided(signed(a), signed(b), True), (1, 7): lambda a, b: divided(a, b, True),
}

# The same on the low 32 bits.
WORDS = {
    (0, 0): lambda a, b: a + b, (0x20, 0): lambda a, b: a - b, (0, 1): lambda a, b: a << (b & 31),
    (0, 5): lambda a, b: (a & 0xffffffff) >> (b & 31), (0x20, 5): lambda a, b: signed(a, 32) >> (b & 31),
    (1, 0): lambda a, b: a * b, (1, 4): lambda a, b: divided(signed(a, 32), signed(b, 32), False),
    (1, 5): lambda a, b: divided(a & 0xffffffff, b & 0xffffffff, False),
    (1, 6): lambda a, b: divided(signed(a, 32), signed(b, 32), True),
    (1, 7): lambda a, b: divided(a & 0xffffffff, b & 0xffffffff, True),
}

BRANCHES = {0: lambda a, b: a == b, 1: lambda a, b: a != b, 4: lambda a, b: signed(a) < signed(b), 5: lambda a, b: signed(a) >= signed(b),
            6: lambda a, b: a < b, 7: lambda a, b: a >= b}


class Process:
    """A process, as the comments of the log have it."""

    def __init__(self, size):
        self.pc, self.x, self.memory = 0, [0] * 32, bytearray()
        self.resize(size)

    def resize(self, size):
        """Its pages are those in which that many bytes begin; those that come are 0."""
        length = -(-size // PAGE) * PAGE
        del self.memory[length:]
        self.memory.extend(bytes(length - len(self.memory)))

    def load(self, address, count):
        if address + count > len(self.memory):
            fail(f"a load of {count} bytes at 0x{address:x} is past the memory")
        return int.from_bytes(self.memory[address:address + count], "little")

    def store(self, address, data):
        if address + len(data) > len(self.memory):
            fail(f"a store of {len(data)} bytes at 0x{address:x} is past the memory")
        self.memory[address:address + len(data)] = data

    def step(self, core):
        """Does the instruction at the pc. Returns its line."""
        at, word = self.pc, self.load(self.pc, 4)
        self.pc = at + 4
        value, access = self.act(at, word)
        line = f"core{core:4d}: 0 0x{at:016x} (0x{word:08x})"
        target = word >> 7 & 31
        if value is not None and target:
            self.x[target] = value & MASK
            line += f" x{target:<2d} 0x{value & MASK:016x}"
        return line + access

    def act(self, at, word):
        """What is written to a register, if anything is, and what the line says of memory."""
        code, third, seventh = word & 127, word >> 12 & 7, word >> 25
        a, b = self.x[word >> 15 & 31], self.x[word >> 20 & 31]
        low = signed(word >> 20, 12)
        if code == 0x33:
            return ALU[seventh, third](a, b), ""
        if code == 0x3b:
            return signed(WORDS[seventh, third](a, b), 32), ""
        if code == 0x13:
            return ALU[(seventh & 0x7e if third in (1, 5) else 0), third](a, low & MASK), ""
        if code == 0x1b:
            return signed(WORDS[(seventh if third in (1, 5) else 0), third](a, low & MASK), 32), ""
        if code == 0x03:
            address, count = (a + low) & MASK, 1 << (third & 3)
            value = self.load(address, count)
            return (value if third & 4 else signed(value, 8 * count)), f" mem 0x{address:016x}"
        if code == 0x23:
            address, count = (a + signed(seventh << 5 | word >> 7 & 31, 12)) & MASK, 1 << third
            value = b & ((1 << 8 * count) - 1)
            self.store(address, value.to_bytes(count, "little"))
            return None, f" mem 0x{address:016x} 0x{value:0{2 * count}x}"
        if code == 0x63:
            if BRANCHES[third](a, b):
                self.pc = at + signed((word >> 31) << 12 | (word >> 7 & 1) << 11 | (word >> 25 & 63) << 5 | (word >> 8 & 15) << 1, 13) & MASK
            return None, ""
        if code == 0x6f:
            self.pc = at + signed((word >> 31) << 20 | (word >> 12 & 255) << 12 | (word >> 20 & 1) << 11 | (word >> 21 & 1023) << 1, 21) & MASK
            return at + 4, ""
        if code == 0x67:
            self.pc = (a + low) & MASK & ~1
            return at + 4, ""
        if code in (0x37, 0x17):
            return signed(word & 0xfffff000, 32) + (at if code == 0x17 else 0), ""
        if code == 0x0f:
            return None, ""
        return fail(f"the word 0x{word:08x} at 0x{at:x} is no instruction")


class Replay:
    """The processes of a log."""

    def __init__(self):
        self.processes, self.grows, self.lines, self.calls = {}, set(), 0, 0

    def take(self, line):
        """Does what a line of the log says, or compares it."""
        told = re.match(r"core +(\d+): ", line)
        if told:
            wanted = self.process(int(told[1])).step(int(told[1]))
            if wanted != line:
                fail(f"the line is\n{line}\nand not\n{wanted}")
            self.lines += 1
            return
        told = re.match(r"# pid (\d+) (.*)$", line)
        if not told:
            fail("no line of a log:", line)
        self.comment(int(told[1]), told[2].split())

    def process(self, pid):
        if pid not in self.processes:
            fail(f"nothing is known of process {pid}")
        return self.processes[pid]

    def comment(self, pid, words):
        if words[0] == "size":
            if pid in self.grows:
                self.process(pid).resize(int(words[1]))
                self.grows.discard(pid)
            else:
                self.processes[pid] = Process(int(words[1]))
        elif words[0] == "pc":
            self.process(pid).pc = int(words[1], 16)
        elif re.fullmatch(r"x\d+", words[0]):
            self.process(pid).x[int(words[0][1:])] = int(words[1], 16)
        elif words[0] == "mem":
            self.process(pid).store(int(words[1], 16), bytes.fromhex(words[2]))
        elif words[0] == "ended":
            del self.processes[pid]
        else:
            self.returns(pid, words)

    def returns(self, pid, words):
        """A call returns."""
        process, name, result = self.process(pid), words[0], int(words[2])
        number = process.x[17] & 0xffffffff
        if process.load(process.pc, 4) != ECALL or CALLS.get(name, number) != number:
            fail(f"process {pid} is at no call {name}")
        process.pc += 4
        process.x[10] = result & MASK
        self.calls += 1
        if name == "sbrk":
            self.grows.add(pid)


def script_of(lines):
    """A session: what is typed, with interrupts between."""
    text = "step 20000\n"
    for line in lines:
        text += f"keys {(line + chr(10)).encode().hex()}\n" + "step 613\ntick 1\n" * 60 + "step 20000\n"
    return text


def main():
    program = str(pathlib.Path(sys.argv[1]).resolve())
    with tempfile.TemporaryDirectory() as name:
        scratch = pathlib.Path(name)
        for source in sorted(USER.glob("*.s")):
            subprocess.run([program, "asm", str(source), str(scratch / source.stem)], check=True)
        subprocess.run([program, "mkfs", str(USER / "manifest"), "image"], check=True, cwd=scratch)
        (scratch / "script").write_text(script_of(TYPED))
        subprocess.run([program, "trace", "--core-is-pid", "--commits", "log", "image", "script"], check=False, cwd=scratch, capture_output=True)
        replay = Replay()
        with open(scratch / "log", encoding="ascii") as log:
            for line in log:
                replay.take(line.rstrip("\n"))
    if replay.lines < 5000 or replay.calls < 100:
        fail(f"only {replay.lines} instructions and {replay.calls} calls")
    print(f"commits: {replay.lines} instructions and {replay.calls} calls of the log agree")


if __name__ == "__main__":
    main()
