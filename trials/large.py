#!/usr/bin/env python3
"""Tries the longest file on the largest image.

    trials/large.py PROGRAM     as `make large` calls it

`mkfs` makes an image of 131072 blocks with a file of 67382272 bytes, and refuses a byte more. Then a shell of the programs of
`user/` makes files of 40 MB and of the longest, reads and removes them, and is refused a block more. What is in use of the saved
image is what was in use before.

The status is 1 where something else came of it.
"""

import os
import pathlib
import subprocess
import sys
import tempfile
import time

USER = pathlib.Path(__file__).resolve().parent.parent / "user"
LONGEST, BLOCKS, SIZE = 67382272, 65803, 131072

# What is typed, and what the shell shows of it.
LINES = [
    ("fill 40960 f", ""),
    ("fill f", "40960 blocks\n"),
    ("rm f", ""),
    (f"fill {BLOCKS} f", ""),
    ("fill f", f"{BLOCKS} blocks\n"),
    ("rm f", ""),
    (f"fill {BLOCKS + 1} f", "fill: failed\n"),
    ("fill f", f"{BLOCKS} blocks\n"),
    ("rm f", ""),
]

# How many steps each line has, which is more than it takes.
STEPS = 3_000_000


class Tried:
    """The program in a folder of its own, and whether all that was tried came out as wanted."""

    def __init__(self, program, folder):
        self.program, self.folder, self.good = program, folder, True

    def expect(self, words, status, shown="", told=""):
        """Runs a command: its status, and what it writes to standard output and to standard error."""
        start = time.monotonic()
        ran = subprocess.run([self.program, *words], cwd=self.folder, capture_output=True, text=True)
        is_so = (ran.returncode, ran.stdout, ran.stderr) == (status, shown, told)
        self.good &= is_so
        seconds = time.monotonic() - start
        print(f"{' '.join(words)}: {seconds:.1f} s, {'as wanted' if is_so else 'WRONG'}", flush=True)
        if not is_so:
            print(f"    status {ran.returncode}, {ran.stdout[-300:]!r}, {ran.stderr[-300:]!r}")

    def shown(self, words):
        """What a command writes to standard output."""
        return subprocess.run([self.program, *words], cwd=self.folder, capture_output=True, text=True).stdout

    def made(self):
        """The longest file on an image, and one of a byte more."""
        (self.folder / "manifest").write_text("file /f longest\n")
        words = ["mkfs", "--size", str(SIZE), "--inodes", "16", "manifest", "made.img"]
        for length, status, told in [(LONGEST, 0, ""), (LONGEST + 1, 1, "fault 3 Blocks\n")]:
            with open(self.folder / "longest", "wb") as file:
                file.truncate(length)
            self.expect(words, status, told=told)
        self.expect(["check", "made.img"], 0, "ok 2 inodes 66062 blocks\n")

    def booted(self):
        """Files that a shell makes, reads and removes."""
        for text in sorted(USER.glob("*.s")):
            self.expect(["asm", str(text), text.stem], 0)
        self.expect(["mkfs", "--size", str(SIZE), str(USER / "manifest"), "image"], 0)
        begin = "step 3000\n"
        (self.folder / "begin").write_text(begin)
        (self.folder / "script").write_text(begin + "".join(f"type {line}\nstep {STEPS}\n" for line, _ in LINES))
        shown = "init: starting sh\n$ "
        self.expect(["run", "--save", "begun.img", "image", "begin"], 0, shown, "running\n")
        shown += "".join(f"{line}\n{answer}$ " for line, answer in LINES)
        self.expect(["run", "--tlb", "--save", "saved.img", "image", "script"], 0, shown, "running\n")
        self.expect(["check", "saved.img"], 0, self.shown(["check", "begun.img"]))


def main():
    if "--help" in sys.argv[1:]:
        print(__doc__.strip())
        return
    if len(sys.argv) != 2:
        sys.exit(__doc__.strip())
    with tempfile.TemporaryDirectory() as folder:
        tried = Tried(os.path.abspath(sys.argv[1]), pathlib.Path(folder))
        tried.made()
        tried.booted()
    sys.exit(0 if tried.good else 1)


if __name__ == "__main__":
    main()
