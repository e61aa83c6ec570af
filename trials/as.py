#!/usr/bin/env python3
"""as.py PROGRAM [COUNT], as.py --rows: compares the files that `xv6 as` makes with those of GNU as and ld, byte for byte.

First COUNT random texts of all forms (300), then the exercises of examples/assembly/textbook, then what gcc makes of
the C programs of examples/c and user-c, if it is there.
Then texts with random changes, of which each fault has to name a line that exists.
ld puts all sections into one, from address 0 on, in the order text, rodata, data, bss.
With --rows it writes the texts of crates/assembly_rows: 300 random ones, each with the length and the sum of the bytes of GNU as and ld."""
import pathlib
import random
import re
import shutil
import struct
import subprocess
import sys
import tempfile

TOP = pathlib.Path(__file__).resolve().parent.parent
PREFIX = "riscv64-linux-gnu-"
LAYOUT = """SECTIONS {
    . = 0;
    .all : {
        *(.text .text.* .init .init.*) *(.rodata .rodata.* .srodata .srodata.*)
        *(.data .data.* .sdata .sdata.*) *(.bss .bss.* .sbss .sbss.*) *(COMMON)
        BYTE(1)
    }
    /DISCARD/ : { *(*) }
}
"""
REGISTERS = ["zero", "ra", "sp", "gp", "tp", "fp", *(f"t{n}" for n in range(7)), *(f"s{n}" for n in range(12)), *(f"a{n}" for n in range(8)),
             *(f"x{n}" for n in range(32))]
THREE = "add sub sll slt sltu xor srl sra or and mul mulh mulhsu mulhu div divu rem remu addw subw sllw srlw sraw mulw divw divuw remw remuw sgt sgtu".split()
WITH_NUMBER = "addi slti sltiu xori ori andi addiw add slt sltu xor or and addw".split()
SHIFTS = "slli srli srai sll srl sra".split()
WORD_SHIFTS = "slliw srliw sraiw sllw srlw sraw".split()
LOADS = "lb lh lw ld lbu lhu lwu".split()
STORES = "sb sh sw sd".split()
BRANCHES = "beq bne blt bge bltu bgeu bgt ble bgtu bleu".split()
ZERO_BRANCHES = "beqz bnez blez bgez bltz bgtz".split()
PAIRS = "mv not neg negw sext.w seqz snez sltz sgtz sext.b sext.h zext.b zext.h zext.w".split()
SECTIONS = [".text", ".data", ".bss", ".section .rodata", ".section .data"]


class Text:
    """A random text: labels of a file, and statements that use them."""

    def __init__(self, seed, unit=0, is_short=False):
        self.random, self.unit, self.lines, self.section, self.is_short = random.Random(seed), unit, [], ".text", is_short
        self.labels = [f"l{unit}_{n}" if self.random.random() < 0.7 else f".L{unit}.{n}" for n in range(self.random.randint(1, 8))]
        self.data = [f"d{unit}_{n}" for n in range(self.random.randint(1, 4))]
        self.sizes = {}

    def pick(self, *choices):
        return self.random.choice(choices)

    def register(self):
        return self.random.choice(REGISTERS)

    def literal(self, low, high):
        """A number from low to high, in some form."""
        number = self.random.randint(low, high)
        if number < 0:
            return str(number)
        if 32 < number < 127 and chr(number) not in "\\'\";,:#/()" and self.random.random() < 0.3:
            return f"'{chr(number)}'"
        return self.random.choice([str, hex, bin, lambda n: "0" + oct(n)[2:], lambda n: f"0X{n:X}"])(number)

    def number(self, low, high):
        """An expression from low to high."""
        if self.sizes and self.random.random() < 0.1:
            name, value = self.random.choice(list(self.sizes.items()))
            if low <= value <= high:
                return name
        if self.random.random() < 0.7:
            return self.literal(low, high)
        a, b = self.random.randint(0, 1000), self.random.randint(1, 30)
        text, value = self.random.choice([(f"{a} + {b}", a + b), (f"{a} - {b}", a - b), (f"({a} * {b})", a * b), (f"{a} / {b}", a // b), (f"{a} % {b}", a % b),
                                          (f"{a} << {b % 8}", a << b % 8), (f"{a} >> {b}", a >> b), (f"{a} & ~{b}", a & ~b), (f"{a} | {b} ^ 3", a | b ^ 3 if False else (a | b) ^ 3),
                                          (f"-{b}", -b), (f"{a} + {b} * 2", a + b * 2), (f"2 * ({a} - {b})", 2 * (a - b)), (f"'a' - {b}", 97 - b)])
        return text if low <= value <= high else self.literal(low, high)

    def wide(self):
        """Any number of 64 bits."""
        kind = self.random.random()
        if kind < 0.3:
            return self.literal(-(1 << 31), (1 << 31) - 1)
        if kind < 0.5:
            return self.pick("", "-") + str(1 << self.random.randint(0, 62))
        if kind < 0.7:
            return self.pick("", "-") + hex((1 << self.random.randint(1, 63)) - 1)
        return self.literal(-(1 << 63), (1 << 64) - 1)

    def label(self):
        return self.random.choice(self.labels)

    def symbol(self):
        return self.random.choice(self.labels + self.data) + self.random.choice(["", "", "", "+4", " - 8"])

    def target(self):
        return self.pick(self.label(), self.label(), "1f", "1b", "2b")

    def instruction(self):
        r, n = self.register, self.number
        return self.random.choice([
            lambda: f"{self.pick(*THREE)} {r()}, {r()}, {r()}",
            lambda: f"{self.pick(*WITH_NUMBER)} {r()},{r()}, {n(-2048, 2047)}",
            lambda: f"{self.pick(*SHIFTS)} {r()}, {r()}, {n(0, 63)}",
            lambda: f"{self.pick(*WORD_SHIFTS)} {r()}, {r()}, {n(0, 31)}",
            lambda: f"{self.pick(*LOADS, *STORES)} {r()}, {n(-2048, 2047)}({r()})",
            lambda: f"{self.pick(*LOADS, *STORES)} {r()}, ({r()})",
            lambda: f"{self.pick(*LOADS)} {r()}, {self.symbol()}",
            lambda: f"{self.pick(*STORES)} {r()}, {self.symbol()}, {r()}",
            lambda: f"{self.pick(*BRANCHES)} {r()}, {r()}, {self.target()}",
            lambda: f"{self.pick(*ZERO_BRANCHES)} {r()}, {self.target()}",
            lambda: f"{self.pick(*PAIRS)} {r()}, {r()}",
            lambda: f"li {r()}, {self.wide()}",
            lambda: f"li {r()}, {n(-100000, 100000)}",
            lambda: f"{self.pick('la', 'lla')} {r()}, {self.symbol()}",
            lambda: f"{self.pick('lui', 'auipc')} {r()}, {n(0, 0xfffff)}",
            lambda: f"lui {r()}, %hi({self.symbol()})",
            lambda: f"{self.pick('addi', 'ori')} {r()}, {r()}, %lo({self.symbol()})",
            lambda: f"{self.pick('lw', 'sd')} {r()}, %lo({self.symbol()})({r()})",
            lambda: f"{self.pick('j', 'jal', 'call', 'tail')} {self.target()}",
            lambda: f"jal {r()}, {self.target()}",
            lambda: f"{self.pick('jr', 'jalr')} {r()}",
            lambda: f"jalr {r()}, {r()}, {n(-2048, 2047)}",
            lambda: f"jalr {r()}, {n(-2048, 2047)}({r()})",
            lambda: self.pick("nop", "ret", "ecall", "ebreak", "fence", "NOP", "Ret"),
        ])()

    def string(self):
        letters = "".join(self.random.choice(["a", "B", " ", "#", "//", "/*", ";", "'", ",", "\\n", "\\t", "\\\\", "\\\"", "\\0", "\\101", "\\x41", "%", "é"])
                          for _ in range(self.random.randint(0, 8)))
        return f'"{letters}"'

    def value(self, bits):
        if bits >= 32 and self.random.random() < 0.3:
            return self.symbol()
        if self.random.random() < 0.1 and self.section == ".data":
            return f". - {self.data[0]}" if f"{self.data[0]}:" in "".join(self.lines) and bits >= 32 and self.has_data else self.literal(0, 100)
        return self.literal(-(1 << bits - 1), (1 << bits) - 1)

    has_data = False

    def datum(self):
        values = lambda bits: ", ".join(self.value(bits) for _ in range(self.random.randint(1, 3)))
        return self.random.choice([
            lambda: f".byte {values(8)}",
            lambda: f"{self.pick('.half', '.short', '.2byte')} {values(16)}",
            lambda: f"{self.pick('.word', '.long', '.4byte')} {values(32)}",
            lambda: f"{self.pick('.dword', '.quad', '.8byte')} {values(64)}",
            lambda: f"{self.pick('.ascii', '.asciz', '.string')} {self.string()}",
            lambda: f".asciz {self.string()}, {self.string()}",
            lambda: f"{self.pick('.space', '.skip', '.zero')} {self.literal(0, 40)}",
            lambda: f".space {self.literal(0, 9)}, {self.literal(0, 255)}",
            lambda: f"{self.pick('.align', '.p2align')} {self.literal(0, 4)}",
            lambda: f".balign {self.pick('1', '2', '4', '8', '16')}",
        ])()

    def zeros(self):
        return self.random.choice([lambda: f".zero {self.literal(0, 40)}", lambda: f".align {self.literal(0, 4)}", lambda: f".space {self.literal(0, 9)}"])()

    def other(self):
        name = f"N{self.unit}_{len(self.sizes)}"
        number = self.random.randint(-100, 3000)
        self.sizes[name] = number
        return self.pick(f".equ {name}, {number}", f".set {name}, {number}", f"{name} = {number}")

    def go(self):
        """To another section; what is in the text ends at a multiple of four."""
        if self.section == ".text":
            self.lines.append(".align 2")
        self.section = self.pick(*SECTIONS)
        self.lines.append(self.section)
        if self.section == ".text":
            self.lines.append(".align 2")

    def statement(self):
        chance = self.random.random()
        if chance < 0.1:
            return self.other()
        if self.section == ".text":
            return self.instruction()
        return self.zeros() if self.section == ".bss" else self.datum()

    def put(self, labels, count):
        for _ in range(count):
            if labels and (self.section == ".text") == (labels[0][0] != "d") and self.random.random() < 0.3:
                self.lines.append(labels.pop() + ":")
            line = self.statement()
            self.lines.append(self.pick("", "\t", "    ") + line + self.pick("", "", " # a comment", " /* this\none */", "; nop" if self.section == ".text" else ""))

    def text(self):
        labels, data = self.labels[:], self.data[:]
        self.lines += ["1:", "2: nop"]
        for _ in range(1 if self.is_short else self.random.randint(1, 4)):
            self.put(labels, self.random.randint(1, 6 if self.is_short else 12))
            self.lines += [".macro m%d_%d r, n=5, op=addi\n\\op \\r, \\r, \\n\nat\\@_%d: j at\\@_%d\n.endm" % ((self.unit, len(self.lines)) + (self.unit,) * 2)] if self.random.random() < 0.2 else []
            if self.random.random() < 0.2:
                self.lines.append(f".rept {self.random.randint(0, 3)}\n{self.statement()}\n.endr")
            self.go()
            if self.section != ".text":
                self.put(data, self.random.randint(1, 8))
                self.go()
        for name in data:
            self.lines += [".data", f"{name}: .word 1"]
        self.lines += [".text", ".align 2", *(f"{name}:" for name in labels), "1: nop"]
        return "\n".join(self.lines) + "\n"


def files_of(seed):
    """The texts of a program: one, or two that use each other's labels."""
    if seed % 4:
        return [Text(seed).text()]
    one, other = Text(seed, 0), Text(seed + 1, 1)
    texts = [one.text(), other.text()]
    exports = "".join(f".globl {name}\n" for name in one.labels + other.labels if name.startswith("l"))
    uses = [f"call {name}" for name in other.labels if name.startswith("l")]
    return [exports + texts[0] + "\n".join(uses) + "\n", exports + texts[1]]


def segment(file):
    """The bytes of an ELF file's only segment in memory, without those of .bss at the end that ld doesn't keep."""
    file = file.read_bytes()
    header = struct.unpack_from("<Q", file, 32)[0]
    offset, size = struct.unpack_from("<Q", file, header + 8)[0], struct.unpack_from("<Q", file, header + 32)[0]
    return file[offset:offset + size]


def theirs(folder, texts, flags=()):
    """What GNU as and ld make of texts; None where they refuse one."""
    objects = []
    for n, text in enumerate(texts):
        done = subprocess.run([PREFIX + "as", "-march=rv64im", "-mabi=lp64", "-mno-relax", *flags, text.name, "-o", f"{n}.o"], cwd=folder, capture_output=True, text=True)
        if done.returncode:
            return None, done.stderr
        objects.append(f"{n}.o")
    (folder / "layout").write_text(LAYOUT)
    done = subprocess.run([PREFIX + "ld", "--no-relax", "-T", "layout", *objects, "-o", "linked"], cwd=folder, capture_output=True, text=True)
    if done.returncode:
        return None, done.stderr
    subprocess.run([PREFIX + "objcopy", "-O", "binary", "-j", ".all", "linked", "flat"], cwd=folder, check=True)
    return (folder / "flat").read_bytes()[:-1], ""


def ours(program, folder, texts):
    done = subprocess.run([program, "as", *(text.name for text in texts), "-o", "made"], cwd=folder, capture_output=True, text=True)
    return (segment(folder / "made"), "") if done.returncode == 0 else (None, done.stderr)


def compared(program, folder, texts):
    """What is different, if anything is; and whether both made a file."""
    wanted, said = theirs(folder, texts)
    made, reported = ours(program, folder, texts)
    if wanted is None or made is None:
        return (None if wanted is made else f"as: {said.strip() or 'taken'}\nxv6: {reported.strip() or 'taken'}"), False
    if wanted == made:
        return None, True
    at = next((n for n, (one, other) in enumerate(zip(wanted, made)) if one != other), min(len(wanted), len(made)))
    return f"at {at:#x}: {wanted[at & ~3:][:8].hex()} in as, {made[at & ~3:][:8].hex()} in xv6; {len(wanted)} and {len(made)} bytes", True


def keep(folder, texts, name):
    for n, text in enumerate(texts):
        shutil.copy(text, f"/tmp/as-{name}-{n}.s")


def random_texts(program, folder, count):
    wrong, both = 0, 0
    for seed in range(count):
        texts = []
        for n, text in enumerate(files_of(seed * 2)):
            texts.append(folder / f"text{n}.s")
            texts[n].write_text(text)
        difference, is_both = compared(program, folder, texts)
        both += is_both
        if difference:
            wrong += 1
            keep(folder, texts, seed)
            print(f"text {seed} (/tmp/as-{seed}-0.s): {difference}")
    print(f"{count} random texts, {both} that both take, {wrong} different")
    return wrong


def exercises(program, folder):
    """The texts as textbooks have them, which both have to take."""
    wrong, texts = 0, sorted(TOP.glob("examples/assembly/textbook/**/*.s"))
    for text in texts:
        shutil.copy(text, folder / text.name)
        difference, is_both = compared(program, folder, [folder / text.name])
        if difference or not is_both:
            wrong += 1
            print(f"{text}: {difference or 'both refuse it'}")
    print(f"{len(texts)} exercises, {wrong} different")
    return wrong


def sum_of(data):
    """FNV-1a."""
    value = 0xCBF29CE484222325
    for byte in data:
        value = (value ^ byte) * 0x100000001B3 % (1 << 64)
    return value


def rows(folder, count):
    """Writes short texts that as takes, with the bytes that it makes of them."""
    out, seed = [], 0
    while len(out) < count:
        seed += 1
        text = Text(seed * 7, is_short=True).text()
        (folder / "text.s").write_text(text)
        data, _ = theirs(folder, [folder / "text.s"])
        if data is not None:
            out.append(f"@ {len(data)} {sum_of(data):x}\n{text}")
    (TOP / "crates/assembly_rows/stdin").write_text("".join(out))
    (TOP / "crates/assembly_rows/stdout").write_text(f"{count} texts\n")


def compiled(program, folder):
    """What gcc makes of the C programs."""
    gcc = "riscv64-unknown-elf-gcc"
    if not shutil.which(gcc):
        print(f"no {gcc}: its texts are left out")
        return 0
    wrong, both = 0, 0
    for source in sorted([*TOP.glob("examples/c/*.c"), *TOP.glob("user-c/*.c")]):
        for level in ("-O0", "-O2"):
            flags = ["-march=rv64im", "-mabi=lp64", "-mcmodel=medany", "-ffreestanding", "-fno-merge-constants", "-fno-common", "-nostdinc", f"-I{source.parent}", "-w"]
            if subprocess.run([gcc, *flags, level, "-S", source, "-o", folder / "c.s"], capture_output=True).returncode:
                continue
            (folder / "stubs.s").write_text(stubs(folder / "c.s"))
            difference, is_both = compared(program, folder, [folder / "c.s", folder / "stubs.s"])
            both += is_both
            if difference:
                wrong += 1
                keep(folder, [folder / "c.s", folder / "stubs.s"], source.stem + level)
                print(f"{source.name} {level}: {difference}")
    print(f"{both} texts of gcc that both take, {wrong} different")
    return wrong


def stubs(text):
    """A text that defines what a text uses and doesn't define."""
    with tempfile.TemporaryDirectory() as folder:
        made = subprocess.run([PREFIX + "as", "-march=rv64im", "-mabi=lp64", "-mno-relax", text, "-o", folder + "/o"], capture_output=True)
        if made.returncode:
            return ""
        names = subprocess.run([PREFIX + "nm", "-u", folder + "/o"], capture_output=True, text=True).stdout.split()
    return "".join(f".globl {name}\n{name}: ret\n" for name in names if name != "U")


def changed(chance, text):
    """A text with a few random changes."""
    for _ in range(chance.randint(1, 6)):
        at, other, length = chance.randrange(len(text) + 1), chance.randrange(len(text) + 1), chance.choice((1, 2, 5, 20, 100))
        match chance.randrange(4):
            case 0:
                text = text[:at] + bytes([chance.randrange(256)]) + text[at + 1:]
            case 1:
                text = text[:at] + text[at + length:]
            case 2:
                text = text[:at] + text[other:other + length] + text[at:]
            case 3:
                text = text[:at] + chance.choice((b".macro m\n", b"m\n", b".endm\n", b".include \"text.s\"\n", b".rept 9\n", b";", b"\\", b'"', b"1f", b"(")) + text[at:]
    return text


def is_fault(line, count):
    """Whether a line of standard error is a fault of a text with that many lines."""
    found = re.fullmatch(r"text\.s:(\d+)(:\d+: .*|: called from here)|\d+ more faults", line)
    return found and (not found[1] or 1 <= int(found[1]) <= count)


def mutants(program, folder, count):
    """Texts with random changes: they are taken, or refused by lines that exist."""
    chance, wrong = random.Random(1), 0
    for seed in range(count):
        text = changed(chance, Text(seed % 97).text().encode())
        (folder / "text.s").write_bytes(text)
        try:
            done = subprocess.run([program, "as", "text.s", "-o", "made"], cwd=folder, capture_output=True, timeout=20)
        except subprocess.TimeoutExpired:
            done = None
        said = done.stderr.decode(errors="replace").splitlines() if done else ["no end"]
        if not done or done.returncode != bool(said) or not all(is_fault(line, text.count(b"\n") + 1) for line in said):
            wrong += 1
            keep(folder, [folder / "text.s"], f"mutant{seed}")
            print(f"mutant {seed}: {said[:3]}")
    print(f"{count} changed texts, {wrong} odd")
    return wrong


def main():
    if not shutil.which(PREFIX + "as"):
        sys.exit(f"{PREFIX}as is missing: apt-get install binutils-riscv64-linux-gnu")
    if sys.argv[1] == "--rows":
        with tempfile.TemporaryDirectory() as folder:
            return rows(pathlib.Path(folder), 300)
    program = str(pathlib.Path(sys.argv[1]).resolve())
    count = int(sys.argv[2]) if len(sys.argv) > 2 else 300
    with tempfile.TemporaryDirectory() as folder:
        folder = pathlib.Path(folder)
        wrong = random_texts(program, folder, count) + exercises(program, folder) + compiled(program, folder)
        return 1 if wrong + mutants(program, folder, count) else 0


if __name__ == "__main__":
    sys.exit(main())
