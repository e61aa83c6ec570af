#!/usr/bin/env python3
"""Refuses each request for memory in its turn, in each command of `xv6`, until a run in which none is refused.

    trials/each_allocation.py PROGRAM        as `make refusals` calls it

A run has to do the same as without the refusal, or to report that memory is lacking, with status 1, and then what it was to write is
not there. The lines that report it are NoMemory of its command, and `no memory`, where the program itself found none; a file that
can't be held in memory can't be read. Printed is, for each command, how many requests there are and which lines came how often. The
status is 1 where a result is wrong.

The requests are those of `malloc` and `realloc`, refused by a small library that is loaded before glibc and that `cc` compiles.
`rt try --fail-alloc N` refuses the N-th of them too, in a program that is compiled with checks, but anew for each N: a minute a run.
"""

import collections
import os
import pathlib
import re
import subprocess
import sys
import tempfile

HERE = pathlib.Path(__file__).resolve().parent
USER = HERE.parent / "user"

# Lines that report that memory is wanting.
WANTING = [rb"no memory", rb"cannot read \w+", rb"line \d+: 8 NoMemory", rb"fault (3|4|7|13) NoMemory"]
# Where a save is not written, the line of the run comes before.
WANTING = re.compile(rb"(?:running\n)?(" + rb"|".join(WANTING) + rb")\n")

SCRIPT = "step 100000\ntype echo hi | cat\nstep 100000\n"

# A flat program: getpid, over and over.
FLAT = bytes.fromhex("9308b000730000006ff0dfff")

# Each command, with the file that it writes.
COMMANDS = {
    "asm": (["asm", "text", "out"], "out"),
    "as": (["as", "macros.s", "-o", "out"], "out"),
    "dump": (["dump", "init"], None),
    "mkfs": (["mkfs", "manifest", "out"], "out"),
    "check": (["check", "image"], None),
    "ls": (["ls", "image", "/"], None),
    "migrate": (["migrate", "old", "out"], "out"),
    "flat": (["flat", "flat", "short"], None),
    "run": (["run", "--save", "out", "image", "script"], "out"),
    "run --tlb --fail": (["run", "--tlb", "--fail", "4000000", "image", "script"], None),
    "--help": (["--help"], None),
}


class Wrong(Exception):
    """An answer that isn't one of those that may come."""


def fill(folder, program):
    """Makes the files of the commands."""
    for text in USER.glob("*.s"):
        subprocess.run([program, "asm", text, folder / text.stem], check=True)
    (folder / "manifest").write_bytes((USER / "manifest").read_bytes())
    (folder / "text").write_bytes((USER / "sh.s").read_bytes())
    (folder / "script").write_text(SCRIPT)
    (folder / "short").write_text("step 100\ntick 2\n")
    (folder / "macros.s").write_text('.include "lib.s"\n1: twice li, to=t0\nj 1b\n')
    (folder / "lib.s").write_text(".macro twice op, to=a0\n\\op \\to, 1\n.rept 2\n\\op \\to, 2\n.endr\n.endm\n")
    (folder / "flat").write_bytes(FLAT)
    subprocess.run([program, "mkfs", "manifest", "image"], cwd=folder, check=True)
    # an image of the small format: where no file has more than 11 blocks only the magic number differs
    (folder / "few").write_text("dir /a\nfile /a/b short\ndev /c 1 0\n")
    subprocess.run([program, "mkfs", "--size", "32", "--inodes", "16", "few", "old"], cwd=folder, check=True)
    old = bytearray((folder / "old").read_bytes())
    old[1024] = 0x40
    (folder / "old").write_bytes(old)


def run(program, library, words, written, folder, number):
    """What a run prints and writes, and whether the request of this number was refused."""
    if written:
        (folder / written).unlink(missing_ok=True)
    read, write = os.pipe()
    os.set_blocking(read, False)
    environment = {"LD_PRELOAD": str(library), "REFUSE": str(number)}
    order = ["sh", "-c", f'exec "$@" 3>&{write}', "sh", "env", *(f"{k}={v}" for k, v in environment.items()), program, *words]
    ran = subprocess.run(order, cwd=folder, pass_fds=[write], capture_output=True)
    os.close(write)
    with open(read, "rb") as told:
        is_refused = bool(told.read())
    left = (folder / written).read_bytes() if written and (folder / written).exists() else None
    return (ran.stdout, ran.stderr, ran.returncode, left), is_refused


def refuse_each(program, library, words, written, folder):
    """Refuses each request of a command: how many there are, and how often each line came."""
    same, _ = run(program, library, words, written, folder, 0)
    lines = collections.Counter()
    number = 0
    while True:
        number += 1
        answer, is_refused = run(program, library, words, written, folder, number)
        told = WANTING.fullmatch(answer[1])
        if answer == same:
            lines["the same"] += is_refused
        elif not is_refused or not told or answer[2] != 1 or answer[3] is not None:
            raise Wrong(f"request {number}: status {answer[2]}, {answer[1]}")
        else:
            lines[told[1].decode()] += 1
        if not is_refused:
            return number - 1, lines


def show(name, count, lines):
    """Prints what came of a command."""
    told = ", ".join(f"`{line}` {times}" if line != "the same" else f"the same {times}" for line, times in lines.most_common() if times)
    print(f"{name}: {count} requests: {told}", flush=True)


def refuse_all(program):
    """Refuses each request of each command; whether all results are right."""
    is_well = True
    with tempfile.TemporaryDirectory() as place:
        folder = pathlib.Path(place)
        library = folder / "refuse.so"
        subprocess.run(["cc", "-O1", "-shared", "-fPIC", "-o", library, HERE / "refuse.c"], check=True)
        fill(folder, program)
        for name, (words, written) in COMMANDS.items():
            try:
                show(name, *refuse_each(program, library, words, written, folder))
            except Wrong as wrong:
                print(f"{name}: {wrong}", flush=True)
                is_well = False
    return is_well


def main(words):
    if "--help" in words:
        print(__doc__.strip())
        return 0
    if len(words) != 1:
        print(__doc__.strip())
        return 2
    return 0 if refuse_all(pathlib.Path(words[0]).resolve()) else 1


if __name__ == "__main__":
    sys.exit(main(sys.argv[1:]))
