#!/usr/bin/env python3
"""Compares multiplications and divisions with those of qemu.

    trials/qemu/compare.py [PROGRAM]     with the built xv6, as `make check-qemu` calls it

Qemu has to give what each row of the table in `crates/multiply_rows` wants. Then 1,000,000 random pairs of operands are
multiplied and divided by each of the 13 instructions, on the machine (`xv6 flat`) and by qemu, with the same program
(`pairs.c`): both have to print the same 1000 lines, each of which folds the results of 1000 pairs. Without PROGRAM only the
rows are compared.

Debian's packages `qemu-user`, `gcc-riscv64-linux-gnu` and `libc6-dev-riscv64-cross` are needed. The status is 0 where all
agrees.
"""

import pathlib
import shutil
import subprocess
import sys
import tempfile

HERE = pathlib.Path(__file__).resolve().parent
TABLE = HERE.parent.parent / "crates" / "multiply_rows" / "stdin"

CC = ["riscv64-linux-gnu-gcc", "-march=rv64im", "-mabi=lp64", "-O2", "-Wall", "-Wextra", "-static"]
BARE = ["-mcmodel=medany", "-mstrict-align", "-msmall-data-limit=0", "-ffreestanding", "-fno-pic", "-nostdlib"]
# Nothing sets the register gp, by which a linker would find data.
LINKED = ["-Wl,--build-id=none", "-Wl,--no-relax"]

ROUNDS, PAIRS = 1000, 1000

# More steps than the pairs take.
SCRIPT = "step 1000000000\n"


def run(words, **more):
    return subprocess.run(words, check=True, capture_output=True, **more).stdout


def made(folder, name, words):
    """Compiles a program."""
    program = folder / name
    run([*CC, *words, "-o", program])
    return program


def rows_hold(folder):
    """Whether qemu gives what each row of the table wants."""
    # a program with a library takes the compiler's own idea of the instructions and the ABI
    program = folder / "rows"
    run(["riscv64-linux-gnu-gcc", "-O2", "-static", HERE / "rows.c", "-o", program])
    told = subprocess.run(["qemu-riscv64", program], input=TABLE.read_bytes(), capture_output=True, check=False)
    wanted = len(TABLE.read_text().splitlines())
    print(f"the table against qemu: {told.stdout.decode().strip()}")
    return told.stdout == f"{wanted} rows\n".encode()


def by_qemu(folder, numbers):
    program = made(folder, "pairs", [*BARE, *numbers, HERE / "pairs.c", *LINKED, "-Wl,-e,start"])
    return run(["qemu-riscv64", program])


def by_machine(folder, numbers, xv6):
    linked = made(folder, "linked", [*BARE, "-DXV6", *numbers, HERE / "pairs.c", *LINKED, "-T", HERE / "flat.ld"])
    run(["riscv64-linux-gnu-objcopy", "-O", "binary", linked, folder / "program"])
    (folder / "script").write_text(SCRIPT)
    return run([xv6, "flat", "--tlb", folder / "program", folder / "script"])


def pairs_agree(folder, xv6):
    """Whether the machine and qemu give the same for all pairs."""
    numbers = [f"-DROUNDS={ROUNDS}", f"-DPAIRS={PAIRS}"]
    ours, theirs = by_machine(folder, numbers, xv6).splitlines(), by_qemu(folder, numbers).splitlines()
    if ours == theirs and len(ours) == ROUNDS:
        print(f"{ROUNDS * PAIRS} pairs, 13 instructions each: all as qemu has them")
        return True
    for line, (one, other) in enumerate(zip(ours, theirs)):
        if one != other:
            print(f"line {line}:\n    xv6  {one.decode()}\n    qemu {other.decode()}")
            return False
    print(f"{len(ours)} lines of the machine, {len(theirs)} of qemu")
    return False


def main(words):
    if len(words) > 1 or any(word.startswith("-") for word in words):
        print(__doc__.strip())
        return 2
    for tool, package in (("qemu-riscv64", "qemu-user"), (CC[0], "gcc-riscv64-linux-gnu libc6-dev-riscv64-cross")):
        if not shutil.which(tool):
            print(f"check-qemu: no {tool} (apt install {package})", file=sys.stderr)
            return 1
    with tempfile.TemporaryDirectory() as name:
        folder = pathlib.Path(name)
        holds = rows_hold(folder)
        for xv6 in words:
            holds = pairs_agree(folder, pathlib.Path(xv6).resolve()) and holds
    return 0 if holds else 1


if __name__ == "__main__":
    sys.exit(main(sys.argv[1:]))
