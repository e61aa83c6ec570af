#!/usr/bin/env python3
"""Lets each access of the disk fail in its turn, while `xv6 run` boots an image, runs a session at its shell, and saves it.

    trials/each_access.py PROGRAM IMAGE      as `make outages` calls it

The access of the number N fails by `--fail N`. As N grows, the boot meets it (`fault 3 Device`), then the run, and then the save
(both `halt 2 Device`), and at last nobody. Looked at are the line, the status, that nothing is saved after a failure, and that the
console has a beginning of what the whole session prints, up to the end of an event. Every other run has `--tlb`. The last line
says how many accesses failed each; the status is 1 where a result is wrong.
"""

import functools
import pathlib
import subprocess
import sys
import tempfile

# A session: steps, a typed line, and steps.
STEPS = 100000
TYPED = b"echo hi | cat\n"
EVENTS = STEPS + len(TYPED) + STEPS

BOOT, RUN, SAVE, NOBODY = "the boot", "the run", "the save", "nobody"
ORDER = [BOOT, RUN, SAVE, NOBODY]
FAULT, HALT, RUNNING = (b"fault 3 Device\n", 1), (b"halt 2 Device\n", 1), (b"running\n", 0)


class Wrong(Exception):
    """An answer that isn't one of those that may come."""


def script(events):
    """The first events of the session, as a script."""
    before = min(events, STEPS)
    keys = TYPED[: max(events - STEPS, 0)]
    behind = max(events - STEPS - len(TYPED), 0)
    return f"step {before}\n" + (f"keys {keys.hex()}\n" if keys else "") + f"step {behind}\n"


class Session:
    """The session, on an image, in a folder of its own."""

    def __init__(self, program, image, folder):
        self.program, self.image, self.out = program, image, folder / "out"
        self.script = folder / "script"
        self.whole, _ = self.run(EVENTS)
        self.saved = self.run(EVENTS, "--save", self.out)[0] and self.left()

    def run(self, events, *words):
        """What the first events print, and what is reported after them."""
        self.script.write_text(script(events))
        self.out.unlink(missing_ok=True)
        ran = subprocess.run([self.program, "run", *words, self.image, self.script], capture_output=True)
        return ran.stdout, (ran.stderr, ran.returncode)

    def left(self):
        """The image that was saved, if one was."""
        return self.out.read_bytes() if self.out.exists() else None

    @functools.cache
    def is_whole(self, count):
        """Whether some number of events prints n bytes."""
        low, high = 0, EVENTS
        while low < high:
            middle = (low + high) // 2
            low, high = (low, middle) if len(self.run(middle)[0]) >= count else (middle + 1, high)
        return len(self.run(low)[0]) == count

    def met(self, n):
        """Who meets the failure of the access of this number."""
        words = ["--fail", str(n)] + ["--tlb"] * (n % 2)
        printed, told = self.run(EVENTS, *words, "--save", self.out)
        left = self.left()
        if told == RUNNING and printed == self.whole and left == self.saved:
            return NOBODY
        if left is not None:
            raise Wrong(f"access {n}: an image was saved")
        if told == FAULT and not printed:
            return BOOT
        if told != HALT:
            raise Wrong(f"access {n}: {told}")
        if self.run(EVENTS, *words) == (self.whole, RUNNING) and printed == self.whole:
            return SAVE
        if not self.whole.startswith(printed) or not self.is_whole(len(printed)):
            raise Wrong(f"access {n}: the console has {printed}")
        return RUN


def count_all(session):
    """How many accesses are met by the boot, the run and the save."""
    counts = dict.fromkeys(ORDER, 0)
    reached, n = BOOT, 0
    while reached != NOBODY:
        n += 1
        met = session.met(n)
        if ORDER.index(met) < ORDER.index(reached):
            raise Wrong(f"access {n}: met by {met}, and an earlier one by {reached}")
        reached = met
        counts[met] += 1
    return counts


def main(program, image):
    with tempfile.TemporaryDirectory() as folder:
        session = Session(pathlib.Path(program).resolve(), pathlib.Path(image).resolve(), pathlib.Path(folder))
        try:
            counts = count_all(session)
        except Wrong as wrong:
            print(wrong)
            return 1
    print(", ".join(f"{counts[it]} accesses failed {it}" for it in (BOOT, RUN, SAVE)))
    return 0


if __name__ == "__main__":
    if len(sys.argv) != 3:
        sys.exit(__doc__.strip())
    sys.exit(main(*sys.argv[1:]))
