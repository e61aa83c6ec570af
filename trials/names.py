#!/usr/bin/env python3
"""Compares the names of `xv6 dump --names` with what binutils and LLVM say of each instruction of a program.

    names.py XV6 [--keep DIR]

Programs of user-c/ and examples/c are compiled by gcc and by clang, with line numbers of DWARF 4 and 5, and texts of
examples/assembly assembled by `xv6 as -g`. Files and lines are compared with `addr2line` of both, functions with the
symbol table that `readelf` prints. What `objdump -dl` and `readelf` print of a program of `xv6 as -g` has no warning.
It needs Debian's gcc-riscv64-unknown-elf, clang, lld and llvm.
"""
import argparse
import re
import subprocess
import sys
import tempfile
from pathlib import Path

ROOT = Path(__file__).resolve().parent.parent
BINUTILS = "riscv64-unknown-elf-"

# Where the two differ, in the numbers of DWARF 5's files, either may be right. Both mistake addresses for those of
# functions that ld.lld discarded, so clang's programs are compiled without sections of their own for functions.
JUDGES = [[BINUTILS + "addr2line"], ["llvm-addr2line"]]

MACHINE = "-march=rv64im -mabi=lp64 -mcmodel=medany -msmall-data-limit=0 -ffreestanding -fno-builtin".split()
LINK = "-nostdlib -static -Wl,-z,max-page-size=64 -Wl,--build-id=none -Wl,--gc-sections".split()
GCC = ["riscv64-unknown-elf-gcc", "-mstrict-align"]
CLANG = ["clang", "--target=riscv64-unknown-elf", "-fuse-ld=lld"]

COMPILERS = [
    ("gcc-4", GCC + ["-g", "-gdwarf-4", "-O2", "-ffunction-sections"]),
    ("gcc-5", GCC + ["-g", "-gdwarf-5", "-O1"]),
    ("clang-4", CLANG + ["-g", "-gdwarf-4", "-O2"]),
    ("clang-5", CLANG + ["-g", "-gdwarf-5", "-O1"]),
]

USER = ["cat", "echo", "grep", "ls", "sh", "wc", "stressfs", "forktest"]
EXAMPLES = ["count", "arithmetic"]


def run(words, **more):
    return subprocess.run([str(w) for w in words], check=True, capture_output=True, text=True, **more).stdout


def compile_all(folder):
    """Yields each program's file."""
    library = sorted((ROOT / "user-c/user").glob("*.S")) + sorted((ROOT / "user-c/user").glob("*.c"))
    # The program begins with start.S.
    library.sort(key=lambda path: path.stem != "start")
    for name, compiler in COMPILERS:
        for program in USER:
            out = folder / f"{program}-{name}"
            script = ["-T", ROOT / "user-c/program.ld"]
            run(compiler + MACHINE + ["-I", ROOT / "user-c", "-w"] + LINK + script + library
                + [ROOT / f"user-c/{program}.c", "-o", out])
            yield out
        for program in EXAMPLES:
            out = folder / f"{program}-{name}"
            run(compiler + MACHINE + ["-w"] + LINK + ["-T", ROOT / "examples/c/program.ld", ROOT / "examples/c/start.S",
                ROOT / f"examples/c/{program}.c", "-o", out])
            yield out


def assemble_all(xv6, folder):
    """Yields the file of each text of examples/assembly, which binutils read without a warning."""
    for text in sorted((ROOT / "examples/assembly").glob("*.s")):
        if text.stem == "lib":
            continue
        out = folder / f"{text.stem}-as"
        run([xv6, "as", "-g", text, "-o", out])
        for words in ["objdump", "-dl"], ["readelf", "-SsW"], ["readelf", "--debug-dump=decodedline"]:
            words[0] = BINUTILS + words[0]
            done = subprocess.run([*words, out], check=True, capture_output=True, text=True)
            if done.stderr:
                sys.exit(f"{out.name}: {' '.join(words)}: {done.stderr}")
        yield out


def programs_of(xv6, folder):
    yield from assemble_all(xv6, folder)
    yield from compile_all(folder)


def symbols(program):
    """The functions of a program, and the labels of its code: address, size, name."""
    sections = run([BINUTILS + "readelf", "-SW", program])
    code = set(re.findall(r"^ +\[ *(\d+)\] \S+ +\S+ +\w+ \w+ \w+ \w+ +\w*X", sections, re.M))
    functions, labels = [], []
    for line in run([BINUTILS + "readelf", "-sW", program]).splitlines():
        words = line.split()
        if len(words) != 8 or not words[6].isdecimal():
            continue
        row = (int(words[1], 16), int(words[2], 0), words[7])
        if words[3] == "FUNC":
            functions.append(row)
        elif words[3] == "NOTYPE" and words[6] in code and not words[7].startswith((".L", "$")):
            labels.append(row)
    return sorted(functions), sorted(labels)


def lines(program, addresses):
    """The files and lines that each address may have, by binutils or LLVM; None for no line."""
    asked = "".join(f"{address:#x}\n" for address in addresses)
    told = [judged(run(judge + ["-s", "-e", program], input=asked)) for judge in JUDGES]
    return [set(both) for both in zip(*told)]


def judged(told):
    """What a judge says of each address."""
    found = []
    for line in told.splitlines():
        line = re.sub(r" \(discriminator \d+\)$", "", line)
        name, number = line.rsplit(":", 1)
        found.append(None if name == "??" or number in ("?", "0") else f"{name.rsplit('/', 1)[-1]}:{number}")
    return found


def nearest(rows, address, least=0):
    """The names that the nearest symbol at or below an address may have, if it has it, and the offset in it."""
    below = [row for row in rows if least <= row[0] <= address]
    if not below:
        return None
    start = below[-1][0]
    names = {name for at, size, name in below if at == start and (size == 0 or address < at + size)}
    return (names, address - start) if names else None


def place_of(functions, labels, address):
    """The same of a function, or else of a label after the nearest function."""
    starts = [row[0] for row in functions if row[0] <= address]
    return nearest(functions, address) or nearest(labels, address, starts[-1] if starts else 0)


def texts(place, line):
    """The names of an address, as the dump may write them."""
    suffix = f"({line})" if line else ""
    if not place:
        return {suffix} if suffix else set()
    names, offset = place
    return {f"{name}{f'+{offset:#x}' if offset else ''} {suffix}".strip() for name in names}


def heading_of(place, judged_lines, last):
    """The headings that an address may have, each with the line that is the last one after it."""
    found = {}
    for line in judged_lines:
        begins = place is not None and place[1] == 0
        wanted = texts(place, line)
        if not wanted:
            found[None] = "none"
        elif begins or (line and line != last):
            found.update({f"{text}:": line for text in wanted})
        else:
            found[None] = line
    return found


def compare(xv6, program):
    """The number of instructions of a program, and the first one whose name differs."""
    told, heading, count = {}, None, 0
    for line in run([xv6, "dump", "--names", program]).splitlines():
        found = re.match(r"([0-9a-f]{8}): ", line)
        if not found:
            heading = line
            continue
        told[int(found.group(1), 16)] = heading
        heading = None
    plain = run([xv6, "dump", program])
    named = run([xv6, "dump", "--names", program])
    words = [line for line in named.splitlines() if re.match(r"[0-9a-f]{8}: ", line)]
    if plain.splitlines() != words:
        return 0, "the instructions differ with names and without"
    functions, labels = symbols(program)
    addresses = sorted(told)
    last = None
    for address, judged_lines in zip(addresses, lines(program, addresses)):
        place = place_of(functions, labels, address)
        count += 1
        heading = told[address]
        said = heading_of(place, judged_lines, last)
        if heading not in said:
            return count, f"{address:#x}: {heading}, and not {set(said)}"
        if said[heading] != "none":
            last = said[heading]
    return count, None


def main():
    parser = argparse.ArgumentParser(description=__doc__, formatter_class=argparse.RawDescriptionHelpFormatter)
    parser.add_argument("xv6", type=Path)
    parser.add_argument("--keep", type=Path)
    words = parser.parse_args()
    with tempfile.TemporaryDirectory() as made:
        folder = words.keep or Path(made)
        folder.mkdir(parents=True, exist_ok=True)
        programs = instructions = faults = 0
        for program in programs_of(words.xv6.resolve(), folder):
            count, fault = compare(words.xv6.resolve(), program)
            programs += 1
            instructions += count
            if fault:
                faults += 1
                print(f"{program.name}: {fault}")
        print(f"{programs} programs, {instructions} instructions: {faults} programs differ")
        return 1 if faults else 0


sys.exit(main())
