#!/usr/bin/env python3
"""Counts the instructions that two programs take for a unit of each row of the benchmark.

    bench/instructions.py [--only WORDS] [--functions N] BEFORE AFTER
    bench/instructions.py --plain [--only WORDS] PROGRAM
    bench/instructions.py --list

A row is that of `rows.py` with fewer units, since callgrind takes some fifty times as long as the processor. It is run at two
sizes, and a unit takes what the larger one takes more, divided by how many units more it has. So what a run takes once,
for its start, for booting an image or making a program, isn't in it. The same programs have the same counts however busy the
machine is:

    | fork and wait | child | 45155 | 45155 | 1.000 | 1.000 |

says that a child takes 45155 instructions of the program BEFORE, and 1.000 times as many of AFTER. The last number is the ratio
without what the host's library takes to fill and copy memory: callgrind counts an instruction for each byte of a large block
there, which hides all else. A ratio above 1.02 is marked MORE. `--functions N` prints beneath a row the N functions whose own
instructions differ most, in instructions a unit. It takes programs with symbols; what is inlined counts for the function that it
is in.

With `--plain` it is one program, in the rows of flat programs whose unit is a step, and beside it are the plain interpreter,
the same with `--tlb`, and its twin.

Each program makes its own images and assembles its own texts. What ran has to print and return what the benchmark's row says.
A row that fails in one of them is marked, and the status is 1 then. It takes Debian's valgrind in the PATH, and some
minutes of a processor; compare programs that were built alike.
"""

import argparse
import collections
import dataclasses
import functools
import pathlib
import re
import subprocess
import sys
import tempfile
import typing

sys.dont_write_bytecode = True

import images
import rows
import texts
from jobs import PLAIN, TWIN, Assembled, Booted, Check, Compiled, Flat, Mkfs, Place, Program, compile_plain, image_of
from measure import Failed, run

MOST = 1.02

# What fills, copies and compares memory in the host's library.
FILLS = re.compile(r"_*(mem(set|cpy|move|cmp)|bcmp)(_.*)?")


@dataclasses.dataclass(frozen=True)
class Counted:
    """A row of which instructions are counted: a function from a size to its job and how many units that does, and two sizes."""

    name: str
    unit: str
    sized: typing.Callable
    sizes: tuple


# ---- the rows


def tight(booted, flags, rounds):
    return on_hart(Program("tight", ROUNDS=rounds), booted, flags), 6 * rounds + 4


def memory(booted, flags, rounds):
    return on_hart(Program("memory", ROUNDS=rounds), booted, flags), rounds * (8 * 2048 + 3) + 10


def on_hart(program, booted, flags):
    return booting({"init": program}) if booted else Flat(program, flags=flags)


def booting(files, script="step 1000000000\n", size=200, **more):
    """A run from an image of few blocks, whose check takes little."""
    return Booted(image_of(files, size, 50), script, **more)


def hart_rows():
    for name, loop, sizes in [("tight loop", tight, (10_000, 40_000)), ("memory loop", memory, (2, 8))]:
        for how, booted, flags in [("", False, ()), (" with --tlb", False, ("--tlb",)), (" from an image", True, ())]:
            yield Counted(name + how, "step", functools.partial(loop, booted, flags), sizes)


def c_rows():
    def stepped(name, steps):
        return Flat(Compiled(name), f"step {steps}\n", end=rows.RUNNING), steps

    # The others begin with what they do only once.
    from_start = {"mandelbrot", "queens", "floats"}
    for name in rows.C_STEPS:
        sizes = (100_000, 500_000) if name in from_start else (500_000, 1_500_000)
        yield Counted(f"{name} in C", "step", functools.partial(stepped, name), sizes)


def clash_rows():
    def clashing(pages, rounds):
        return rows.clash(pages, rounds), rows.CLASH_STEPS * rounds

    for pages in (1, rows.APART):
        name = f"functions in two pages whose frames differ by {pages}"
        yield Counted(name, "step", functools.partial(clashing, pages), (1000, 5000))


def sum_rows():
    def summing(gap, rounds):
        return rows.summed(gap, rounds), rows.SUM_STEPS * rounds

    for name, gap in rows.SUMS:
        yield Counted(name, "step", functools.partial(summing, gap), (10_000, 40_000))


def look_rows():
    def logged(calls):
        job = booting({"init": Program("seldom", CALLS=calls, ROUNDS=497)})
        return dataclasses.replace(job, by=("trace", "--text", "text", "--commits", "log")), (2 * 497 + 7) * calls

    def explored(calls):
        return rows.exploring(calls), rows.STATES[calls]

    yield Counted("trace --commits", "step", logged, (10, 50))
    yield Counted("explore", "state", explored, (4, 8))


def multiply_rows():
    def flat(name, rounds, wanted):
        program = Program(name, ROUNDS=rounds, WANTED=wanted, MULTIPLY=rows.MULTIPLIES[0])
        return Flat(program, flags=("--tlb",))

    def hashed(rounds):
        return flat("hash", rounds, rows.hash_after(rounds)), 1024 * rounds

    def multiplied(rounds):
        return flat("matrix", rounds, rows.product_sum()), 32**3 * rounds

    yield Counted("a hash", "multiplication", hashed, (8, 40))
    yield Counted("a product of matrices", "multiplication", multiplied, (1, 2))


def page_rows():
    for before, pages, sizes in [(0, 4096, (1, 2)), (0, 64, (50, 200)), (4096, 64, (50, 200))]:
        above = f" above {before} pages" if before else ""
        name = f"sbrk by {pages} pages{above}"
        yield Counted(name, "page", lambda n, b=before, p=pages: (rows.sbrk(b, p, n), p * n), sizes)
    name = "fork of 200 pages that the child writes"
    yield Counted(name, "page", lambda n: (rows.fork(200, 200, n), 200 * n), (10, 40))


def process_rows():
    yield Counted("fork and wait", "child", lambda n: (rows.fork(0, 0, n), n), (300, 1500))
    yield Counted("fork of 200 pages", "child", lambda n: (rows.fork(200, 0, n), n), (100, 500))
    yield Counted("fork of 200 pages that execs at once", "child", functools.partial(executing, 200, 1), (50, 250))
    yield Counted("exec of a program of 200 pages", "program", functools.partial(executing, 0, 200), (20, 120))


def executing(pages, length, rounds):
    init = Program("exec", BYTES=pages * rows.PAGE, ROUNDS=rounds)
    program = Program("p", pages=length, LAST=length * rows.PAGE - 1)
    return booting({"init": init, "p": program}, size=400, frames=2048), rounds


def turn_rows():
    for name, program, steps, before in [
        ("64 processes, turns of 100 steps", Program("share"), 100, ""),
        ("64 processes of which 63 wait, turns of 100 steps", Program("waiting", WAITING=63), 100, ""),
        ("64 processes of which 63 wait, turns of 2 steps", Program("waiting", WAITING=63), 2, "step 2000\n"),
    ]:
        sizes = (300, 1500) if steps == 100 else (1000, 8000)
        yield Counted(name, "turn", functools.partial(ticking, program, steps, before), sizes)


def ticking(program, steps, before, ticks):
    return Flat(program, before + f"step {steps}\ntick 1\n" * ticks, 1024, end=rows.RUNNING), ticks


def byte_rows():
    def piped(rounds):
        return Flat(Program("pipe", ROUNDS=rounds, TOTAL=512 * rounds)), 512 * rounds

    def typed(lines):
        script = f"type {rows.LINE}step 30\n" * lines + "keys 04\nstep 30\n"
        return Flat(Program("echo"), script, stdout=(2 * rows.LINE * lines).encode() + b"\x04"), lines

    yield Counted("512 bytes through a pipe", "byte", piped, (1000, 5000))
    yield Counted("typed lines, read and echoed", "line", typed, (200, 1200))
    yield Counted("lines `echo hi \\| cat` at a shell", "line", lambda n: (rows.session(n), n), (3, 15))


# ---- files


def rewriting_rows():
    name = "a file of {} bytes written and read back in pieces of {}"
    for piece, rounds in [(16, (1, 2)), (512, (10, 50)), (4096, (20, 120))]:
        yield Counted(name.format(25_000, piece), "byte", functools.partial(rewritten, 25_000, piece), rounds)
    yield Counted(name.format("up to 60000", 16), "byte", lambda length: rewritten_on_image(length, 16, 1), (20_000, 60_000))
    for piece in [512, 4096]:
        job = functools.partial(rewritten_on_image, 270_000, piece)
        yield Counted(name.format(270_000, piece), "byte", job, (1, 3))


def rewritten(length, piece, rounds):
    return Flat(rows.rewriting(length, piece, rounds)), 2 * length * rounds


def rewritten_on_image(length, piece, rounds):
    return booting({"init": rows.rewriting(length, piece, rounds)}, size=500), 2 * length * rounds


def large_rows():
    def large(size):
        program = rows.rewriting(size * rows.MEGABYTE, 4096, 1, "remove")
        return Booted(image_of({"init": program}, size=8192)), 2 * size * rows.MEGABYTE

    def often(rounds):
        program = rows.rewriting(rows.MEGABYTE, 4096, rounds, "remove")
        return Booted(image_of({"init": program}, size=8192)), 2 * rows.MEGABYTE * rounds

    yield Counted("a file of 3 MB written, read back and removed", "byte", large, (1, 3))
    yield Counted("a file of 1 MB written, read back and removed", "byte", often, (1, 2))


def name_rows():
    def looked_up(rounds):
        return Flat(Program("lookup", PARTS=10, ROUNDS=rounds)), rounds

    def named(size, files):
        program = Program("names", FILES=files, BYTES=size, ROUNDS=1)
        return Booted(image_of({"init": program}, 500, 400)), files

    yield Counted("a file made and unlinked", "file", lambda n: (Flat(Program("remake", ROUNDS=n)), n), (500, 2500))
    yield Counted("a path of ten parts", "path", looked_up, (500, 2500))
    for what, size in [("no bytes", 0), ("100 bytes", 100)]:
        name = f"files of {what} made, opened and unlinked in one directory"
        yield Counted(name, "file, of 180", functools.partial(named, size), (60, 180))
    thousand = lambda files: (rows.naming(files, 0), files)
    yield Counted("files of no bytes made, opened and unlinked in one directory", "file, of 1000", thousand, (600, 1000))


# ---- images and texts


def small_file_rows():
    for name, job in [
        ("check", lambda size: Check(functools.partial(rows.roomy, size))),
        ("ls", rows.list_small),
        ("get of 180 bytes", rows.get_small),
        ("put of 100 bytes", rows.put_small),
    ]:
        yield Counted(f"{name} on an image of few files", "block", lambda size, job=job: (job(size), size), (2000, 6000))
    yield Counted("mkfs of two files", "block", lambda size: (rows.two_files(size), size), (500, 1500))


def making_rows():
    def saved(size):
        return Booted(rows.full_with_init(size), saves=True), size

    def full(size):
        return rows.made_full(size, size // 2), size

    yield Counted("boot and save of a full image", "block", saved, (1000, 3000))
    yield Counted("mkfs of a full image", "block", full, (500, 1500))
    for name, manifest, sizes in [
        ("devices", texts.flat_manifest, (500, 1500)),
        ("directories in one another", texts.chain_manifest, (100, 400)),
    ]:
        yield Counted(f"mkfs of {name}", "byte of the manifest", functools.partial(made, manifest), sizes)


def made(manifest, entries):
    text, told = manifest(entries)
    return Mkfs(text, told, size=2000, inodes=2000), len(text)


def checking_rows():
    for name, make, unit, sizes in [
        ("inodes in use", images.many_inodes, "inode", (1024, 4096)),
        ("blocks in use", images.many_blocks, "block", (1024, 4096)),
        ("names in a directory", images.many_names, "name", (1000, 3000)),
        ("60 directories of many names", lambda names: images.many_names(names, 60), "name in each", (100, 300)),
    ]:
        yield Counted(f"check of {name}", unit, functools.partial(checked, make), sizes)


def checked(make, size):
    return Check(functools.partial(make, size)), size


def text_rows():
    def assembled(lines):
        return Assembled(*texts.labelled(lines)), lines

    yield Counted("asm of lines and labels", "line", assembled, (1000, 4000))


def all_rows():
    """Every row, in the order in which they are counted."""
    machines = [hart_rows, c_rows, clash_rows, sum_rows, multiply_rows, look_rows, page_rows]
    machines += [process_rows, turn_rows, byte_rows]
    files = [rewriting_rows, large_rows, name_rows, small_file_rows, making_rows, checking_rows]
    for group in [*machines, *files, text_rows]:
        yield from group()


# ---- counting


def profile_of(job, place):
    """What callgrind writes of a run of a job."""
    command = job.command(place)
    out, log = command.folder / "callgrind.out", command.folder / "callgrind.log"
    valgrind = ["valgrind", "--tool=callgrind", f"--callgrind-out-file={out}", f"--log-file={log}"]
    run(dataclasses.replace(command, words=[*valgrind, *command.words]))
    return out.read_text()


def calls_of(word, profile):
    """How often functions are called whose names have a word, and the instructions of these calls with all that they call."""
    names, called, calls, spent, lines = {}, "", 0, 0, iter(profile.splitlines())
    for line in lines:
        if found := re.fullmatch(r"(c?)fn=\((\d+)\)(?: (.*))?", line):
            names.setdefault(found[2], found[3])
            called = names[found[2]] if found[1] else called
        elif line.startswith("calls="):
            cost = int(next(lines).split()[1])
            if word in called:
                calls, spent = calls + int(line[len("calls=") :].split()[0]), spent + cost
    return calls, spent


FUNCTION = re.compile(r"fn=\((\d+)\)(?: (.*))?")


def by_function(profile):
    """How many instructions each function took itself, of callgrind's text."""
    counts, names, now, is_call = collections.Counter(), {}, None, False
    for line in profile.splitlines():
        if found := FUNCTION.fullmatch(line):
            names.setdefault(found[1], found[2])
            now = names[found[1]]
        elif found := re.fullmatch(r"cfn=\((\d+)\) (.*)", line):
            names.setdefault(found[1], found[2])
        elif line.startswith("calls="):
            is_call = True
        elif re.match(r"[+*\-\d]", line):
            counts[now] += 0 if is_call else int(line.split()[1])
            is_call = False
    return counts


def count_unit(row, place, **changes):
    """How many instructions a unit of a row takes, by function, where its job is changed so."""
    took = []
    with tempfile.TemporaryDirectory() as folder:
        place = dataclasses.replace(place, folder=pathlib.Path(folder))
        for size in row.sizes:
            job, units = row.sized(size)
            took.append((by_function(profile_of(dataclasses.replace(job, **changes), place)), units))
    (less, fewer), (more, units) = took
    return {name: (more[name] - less[name]) / (units - fewer) for name in less | more}


def figure(count):
    """A count with four digits or more."""
    return f"{count:.0f}" if count >= 1000 else f"{count:.4g}"


def count_row(row, programs, functions):
    """Counts a row in both programs and prints it; whether both did what they have to do."""
    try:
        before, after = [count_unit(row, Place(None, program)) for program in programs]
    except Failed as failed:
        print(f"{row.name}: FAILED: {failed}", flush=True)
        return False
    show(row, before, after)
    changes = {name: after.get(name, 0) - before.get(name, 0) for name in before | after}
    for name in sorted(changes, key=lambda name: -abs(changes[name]))[:functions]:
        if changes[name]:
            print(f"    {changes[name]:+.4g}, {before.get(name, 0):.4g} before: {name}", flush=True)
    return True


def show(row, before, after):
    """Prints what a unit takes, by the functions of both programs."""
    old, new = sum(before.values()), sum(after.values())
    ratios = [new / old, own(after) / own(before)]
    more = ", MORE" if max(ratios) > MOST else ""
    numbers = [figure(old), figure(new), *(f"{ratio:.3f}" for ratio in ratios)]
    print(f"| {row.name} | {row.unit} | {' | '.join(numbers)}{more} |", flush=True)


def own(counts):
    """The instructions of all but what fills, copies and compares memory."""
    return sum(count for name, count in counts.items() if not FILLS.fullmatch(name))


# What is compared with a program, and how its job is changed for that.
BESIDE = {
    "the program": {},
    "plain Rust": {"on": PLAIN, "flags": ()},
    "with --tlb": {"on": PLAIN, "flags": ("--tlb",)},
    "the twin": {"on": TWIN, "flags": ()},
}


def stands_beside_plain(row):
    """Whether the plain interpreters have what a row needs, and it counts steps."""
    job, _ = row.sized(row.sizes[0])
    return row.unit == "step" and isinstance(job, Flat)


def count_beside(row, place):
    """Counts a row in a program and in the plain interpreters and prints it; whether all did what they have to do."""
    try:
        counts = [sum(count_unit(row, place, **changes).values()) for changes in BESIDE.values()]
    except Failed as failed:
        print(f"{row.name}: FAILED: {failed}", flush=True)
        return False
    print(f"| {row.name} | {' | '.join(map(figure, counts))} |", flush=True)
    return True


def count_plain(asked, program):
    """Counts a program beside the plain interpreters; whether all did what they have to do."""
    print(f"| instructions a step | {' | '.join(BESIDE)} |\n|{'---|' * (len(BESIDE) + 1)}", flush=True)
    with tempfile.TemporaryDirectory() as folder:
        place = compile_plain(Place(pathlib.Path(folder), program))
        return all([count_beside(row, place) for row in asked])


def words_of_line():
    """What the command line says."""
    how = argparse.RawDescriptionHelpFormatter
    words = argparse.ArgumentParser(description=__doc__, formatter_class=how, usage=argparse.SUPPRESS)
    words.add_argument("programs", metavar="PROGRAM", type=pathlib.Path, nargs="*", help="the built xv6, before and after, or one of them")
    only = "only rows whose names have these words, or those of another --only"
    words.add_argument("--only", metavar="WORDS", action="append", help=only)
    words.add_argument("--functions", metavar="N", type=int, default=0, help="how many functions to print below a row")
    words.add_argument("--plain", action="store_true", help="one program beside the plain interpreters")
    words.add_argument("--list", action="store_true", help="only prints the rows and their units")
    given = words.parse_args()
    wanted = 1 if given.plain else 2
    if not given.list and (len(given.programs) != wanted or not all(program.is_file() for program in given.programs)):
        words.error(f"it takes {'one program' if given.plain else 'two programs'}: --help says how")
    return given


def main():
    given = words_of_line()
    asked = [row for row in all_rows() if not given.only or any(words in row.name for words in given.only)]
    if given.plain:
        asked = [row for row in asked if stands_beside_plain(row)]
    if not asked:
        print("no row has such a name: --list prints the names", file=sys.stderr)
        return 2
    if given.list:
        for row in asked:
            print(f"{row.name}, for each {row.unit}")
        return 0
    programs = [program.resolve() for program in given.programs]
    if given.plain:
        return 0 if count_plain(asked, *programs) else 1
    print("| row | unit | before | after | ratio | without filling and copying |\n|---|---|---|---|---|---|", flush=True)
    return 0 if all([count_row(row, programs, given.functions) for row in asked]) else 1


if __name__ == "__main__":
    sys.exit(main())
