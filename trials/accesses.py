#!/usr/bin/env python3
"""Counts how often jobs read and write the disk, with the cache as it is and with one that passes every access through.

    trials/accesses.py PROGRAM     as `make accesses` calls it

No command of `xv6` counts that. So the program `accesses/main.txt` is put into a copy of the crates, and once into another copy
whose cache holds no block; `rt try` compiles both, and proves nothing. The counts are exact. The times are by the clock, of a
program that is compiled with checks and without optimization: compare them with one another, on a quiet machine.
"""

import dataclasses
import pathlib
import re
import shutil
import subprocess
import sys
import tempfile

HERE = pathlib.Path(__file__).resolve().parent
sys.dont_write_bytecode = True
sys.path.insert(0, str(HERE.parent / "bench"))

from jobs import Booted, Place
from measure import Failed
from rows import full_with_init, naming, session

# What the program is built on, as a line of crates.txt says it.
LISTED = "accesses: blockdev console image machine sv39 events unixmodel\n"

# Where a block that was read comes into the cache. Without it the cache passes everything through, as where there is no memory.
HOLDING = re.compile(r"let _ =\s*self\s*\.held\s*\.get_or_insert\(\s*n,[^;]*\);")
PASSING = "let _ = slot;"

# How long the compiled program may run.
SECONDS = 600


@dataclasses.dataclass(frozen=True)
class Took:
    """What a job took of its disk, and of time by the clock."""

    reads: int
    writes: int
    seconds: float

    def __str__(self):
        return f"{self.reads} reads, {self.writes} writes, {self.seconds:.3f} s by the clock"


def count_both(folder, pairs):
    """What images and scripts take, in threes: the check of the image, then boot, run and save with the cache, and without."""
    told = []
    for name, passes in [("holding", False), ("passing", True)]:
        (folder / name).mkdir()
        copy_crates(folder / name, passes)
        told.append(count(folder / name, pairs))
    held, passed = told
    return zip(held[::2], held[1::2], passed[1::2])


def copy_crates(folder, passes):
    """Copies the crates and the program into a folder, with a cache that passes everything through where that is asked for."""
    top = HERE.parent
    shutil.copytree(top / "crates", folder / "crates", ignore=shutil.ignore_patterns("out", "must-fail"))
    (folder / "crates.txt").write_text((top / "crates.txt").read_text() + LISTED)
    source = folder / "crates" / "accesses" / "src"
    source.mkdir(parents=True)
    shutil.copyfile(HERE / "accesses" / "main.txt", source / "main.rt")
    if passes:
        pass_through(folder / "crates" / "cache" / "src" / "lib.rt")


def pass_through(source):
    """Makes the cache of a source file one that holds no block."""
    text, count = HOLDING.subn(PASSING, source.read_text())
    if count != 1:
        raise Failed(f"{source.name} of the cache holds blocks at other offsets than one: {HOLDING.pattern}")
    source.write_text(text)


def count(folder, pairs):
    """What the checks and the runs of images with their scripts take, by the program in a copy of the crates: two for each."""
    names, words = [], ["rt", "try", "--seconds", str(SECONDS)]
    for at, (image, script) in enumerate(pairs):
        for name, content in [(f"image{at}", image), (f"script{at}", script.encode())]:
            (folder / name).write_bytes(content)
            words += ["--data", f"{name}={folder / name}"]
            names.append(name)
    ran = subprocess.run([*words, "--", *names], cwd=folder / "crates" / "accesses", capture_output=True, text=True)
    numbers = [line.split() for line in ran.stdout.splitlines()]
    if ran.returncode or len(numbers) != 2 * len(pairs):
        raise Failed(f"rt try: status {ran.returncode}: {ran.stderr.strip()}")
    return [Took(int(reads), int(writes), int(micros) / 1e6) for reads, writes, micros in numbers]


def jobs():
    """The jobs whose accesses are counted, by their names."""
    return {
        "1000 files of 100 bytes made, opened and unlinked, 100 at a time": naming(100, 100, 10),
        "10 lines `echo hi | cat` at a shell": session(10),
        "boot and save of 16384 blocks": Booted(full_with_init(16384)),
    }


def main(words):
    if len(words) != 1 or words[0] in ("-h", "--help"):
        print(__doc__.strip())
        return 0 if words and words[0] in ("-h", "--help") else 2
    with tempfile.TemporaryDirectory() as name:
        folder = pathlib.Path(name)
        place = Place(folder, pathlib.Path(words[0]).resolve())
        made = {name: (job.image(place)[0], job.script) for name, job in jobs().items()}
        try:
            for name, (check, held, passed) in zip(made, count_both(folder, list(made.values()))):
                print(f"{name}: {held}")
                print(f"    passed through: {passed}")
                print(f"    check of its image, which takes no cache: {check}", flush=True)
        except Failed as failed:
            print(f"accesses: FAILED: {failed}")
            return 1
    return 0


if __name__ == "__main__":
    sys.exit(main(sys.argv[1:]))
