#!/usr/bin/env python3
"""Times `xv6` on the rows of a table, each beside what its time is to be compared with.

    bench/run.py [--only WORDS] [--turns N] PROGRAM     as `make bench` calls it
    bench/run.py --list                                 what each row measures, its unit, and what is beside it

There are programs on the machine, which are beside a plain Rust interpreter of the same design where it has what they need,
and else beside the same at another size; and the commands that make, check, read and write images, assemble texts, trace and
explore. For example

    tight loop with --tlb: 1.294 s, 12.9 ns for each step, peak 3052 KiB
        plain Rust: 1.142 s, ratio 1.13
        without --tlb: 1.121 s, ratio 1.15, MORE THAN 1.1

says that the row took 1.294 seconds of processor time, 1.13 times as long as the plain interpreter and 1.15 times as long as
without the flag, where at most 1.1 is wanted. Where the job beside a row does fewer units, `1.02 for each byte` says that a
byte of the row took 1.02 times as long as one of that job. A row is run turn by turn with what is beside it, so that other
work on the machine slows both, and the least times are taken.

What ran has to print and return what the table says: the programs look at each result that they get, and end with status 1
where it is wrong. A row that fails is marked, and the status is 1 then. A ratio that is too high changes no status.

The twin is another plain interpreter, the fastest that we know: it decodes words once, into blocks, and has nothing but the call exit.
Programs that only compute are also beside qemu, which translates the same bytes to code of the host (as a process of Linux, and on
a bare computer without pages), and beside the host's own code of the same C text, where these are installed: Debian's packages
qemu-user, qemu-system-misc and gcc. What each takes for its start is taken off, and less than a millisecond then counts as one.
What isn't installed is left out, and named.

`instructions.py` counts the instructions of the processor for a unit of a row, where valgrind is there;
`trials/accesses.py` counts the accesses of the disk.

`rustc` has to be in the PATH. `rows.py` has the table, `jobs.py` says how the files of a row are made, `measure.py`
measures, `programs` has the assembly texts, `c` the C programs with their bytes, which `make -C bench/c` compiles anew
and compares, `native` the two loops in assembly as C, `baseline` the plain interpreter and `twin.rs` its twin.
`library.py` and `web/measure.py` measure the library, Python and the page, and `report.py` all of it for docs/MEASURED.md.
"""

import argparse
import dataclasses
import os
import pathlib
import sys
import tempfile

sys.dont_write_bytecode = True

from jobs import Place, compile_plain
from measure import Failed, compare_row
from rows import all_rows, missing

TURNS = 3


def cost(seconds):
    """A time in a unit that suits it."""
    for unit, size in [("s", 1), ("ms", 1e-3), ("us", 1e-6)]:
        if seconds >= size:
            return f"{seconds / size:.3g} {unit}"
    return f"{seconds / 1e-9:.3g} ns"


def show(row, took, others):
    """Prints a row, and a line for each job that it is compared with."""
    each = f", {cost(took.seconds / row.count)} for each {row.unit}"
    print(f"{row.name}: {took.seconds:.3f} s{each}, peak {took.peak} KiB")
    for beside, other in zip(row.beside, others):
        ratio = took.seconds / other.seconds
        limit = "" if beside.most is None else f", {'MORE THAN' if ratio > beside.most else 'at most'} {beside.most}"
        part = f", {ratio * beside.count / row.count:.2f} for each {row.unit}" if beside.count else ""
        print(f"    {beside.what}: {other.seconds:.3f} s, ratio {ratio:.2f}{limit}{part}")
    sys.stdout.flush()


def measure_row(row, place, turns):
    """Runs a row and prints it."""
    took, *others = compare_row(row, place, turns)
    show(row, took, others)


def is_done(row, place, turns):
    """Measures a row in a folder of its own; whether all that ran did what it has to do."""
    with tempfile.TemporaryDirectory(dir=place.folder) as folder:
        try:
            measure_row(row, dataclasses.replace(place, folder=pathlib.Path(folder)), turns)
        except Failed as failed:
            print(f"{row.name}: FAILED: {failed}", flush=True)
            return False
    return True


def measure_all(rows, program, turns):
    """Measures the rows; whether all of them did what they have to do."""
    for tool in missing():
        print(f"left out, since it isn't installed: {tool}", flush=True)
    with tempfile.TemporaryDirectory() as folder:
        place = compile_plain(Place(pathlib.Path(folder), program))
        return all([is_done(row, place, turns) for row in rows])


def list_rows(rows):
    """Prints what the rows measure, without running them."""
    for row in rows:
        besides = [beside.what + (f" (at most {beside.most})" if beside.most else "") for beside in row.beside]
        print(f"{row.name}, for each {row.unit}" + "".join(f"\n    {beside}" for beside in besides))


def words_of_line():
    """What the command line says."""
    how = argparse.RawDescriptionHelpFormatter
    words = argparse.ArgumentParser(description=__doc__, formatter_class=how, usage=argparse.SUPPRESS)
    words.add_argument("program", metavar="PROGRAM", type=pathlib.Path, nargs="?", help="the built xv6")
    only = "only rows whose names have these words, or those of another --only"
    words.add_argument("--only", metavar="WORDS", action="append", help=only)
    words.add_argument("--turns", metavar="N", type=int, default=TURNS, help=f"how often each is run, {TURNS} if left out")
    words.add_argument("--list", action="store_true", help="only prints what the rows measure")
    given = words.parse_args()
    if given.turns < 1:
        words.error("--turns takes 1 or more")
    if not given.list and not (given.program and given.program.is_file() and os.access(given.program, os.X_OK)):
        words.error(f"{given.program or 'nothing'} is no program: `make build` makes crates/xv6/out/xv6")
    return given


def main():
    given = words_of_line()

    def is_asked(name):
        return not given.only or any(words in name for words in given.only)

    rows = [row for row in all_rows() if is_asked(row.name)]
    if not rows:
        print("no row has such a name: --list prints the names", file=sys.stderr)
        return 2
    if given.list:
        list_rows(rows)
        return 0
    return 0 if measure_all(rows, given.program.resolve(), given.turns) else 1


if __name__ == "__main__":
    sys.exit(main())
