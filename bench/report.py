#!/usr/bin/env python3
"""Measures what docs/MEASURED.md and the README say of this machine and commit, and writes it there.

    bench/report.py [--only WORDS] [--commit HASH] PROGRAM      as `make measure` calls it
    bench/report.py --lines                                     only counts lines anew

Counts of instructions (callgrind) are the same in each run, of the same program. Times are the least of three turns, in which
what is compared runs one after the other; they want a quiet machine. With `--only` no file is written: what has these words in its
heading is printed; `--commit` says of which commit PROGRAM was built, if not of this one. Times of the gate and of the build are
those that `make measure-gate` and `make build` noted last; where none is noted the page keeps its rows. It takes Debian's valgrind,
`rustc`, and an hour. Qemu, a C compiler, `make library` and `make web` are measured where they are there.
"""
import argparse
import dataclasses
import datetime
import hashlib
import json
import os
import pathlib
import re
import shutil
import subprocess
import sys
import tempfile

sys.dont_write_bytecode = True

import images
import instructions
import rows
from instructions import BESIDE, Counted, calls_of, count_unit, figure, profile_of
from jobs import Flat, Place, Program, compile_plain
from measure import Command, Failed, compare, compare_row, run

TOP = pathlib.Path(__file__).resolve().parent.parent
PAGE = TOP / "docs" / "MEASURED.md"
README = TOP / "README.md"
TURNS = 3
SIXTEEN = b"fifteen letters\n"
BESIDE_WORDS = ["the program", "plain Rust", "plain Rust with `--tlb`", "the twin"]


def table(head, lines):
    """A table of Markdown."""
    return "\n".join([f"| {' | '.join(head)} |", "|" + "---|" * len(head), *(f"| {' | '.join(map(str, line))} |" for line in lines)])


# ---- steps


def steps(place):
    """Instructions of the host a step, and nanoseconds, beside the plain interpreters."""
    counted = []
    for row in filter(instructions.stands_beside_plain, instructions.all_rows()):
        counted.append([row.name, *(figure(sum(count_unit(row, place, **changes).values())) for changes in BESIDE.values())])
    timed = []
    for row in [*rows.hart_rows(), *rows.c_rows()]:
        if not isinstance(row.job, Flat) or row.job.flags:
            continue
        jobs = [dataclasses.replace(row.job, **changes) for changes in BESIDE.values()]
        took = [it.seconds / row.count * 1e9 for it in compare([job.command(place) for job in jobs], TURNS)]
        timed.append([row.name, *(f"{it:.2f}" for it in took), *(f"{took[0] / it:.2f}" for it in took[1:])])
    first = {line[0]: float(line[1]) for line in counted}
    text = "Instructions of the host a step (callgrind, by the difference of two sizes).\n"
    text += "Plain Rust has a cache of translations with `--tlb`.\nThe twin, which decodes a word once into blocks, is the fastest that we know:\n\n"
    text += table(["row", *BESIDE_WORDS], counted)
    text += f"\n\nNanoseconds a step, processor time, the least of {TURNS} turns in one run, and the program's ratio to each:\n\n"
    text += table(["row", *BESIDE_WORDS, *(f"by {name}" for name in BESIDE_WORDS[1:])], timed)
    return text + beside_code(place), first["tight loop"]


def beside_code(place):
    """Nanoseconds a step beside code of the host: what qemu makes of the same bytes, and what a compiler makes of the same C."""
    names, timed = [name for name in rows.PEERS if rows.is_there(name)], []
    if not names:
        return ""
    for row in [*rows.hart_rows(), *rows.c_rows()]:
        row = dataclasses.replace(row, beside=tuple(beside for beside in row.beside if beside.start))
        if row.beside:
            took = [it.seconds / row.count * 1e9 for it in compare_row(row, place, TURNS)]
            timed.append([row.name, *(f"{it:.2f}" for it in took), *(f"{took[0] / it:.1f}" for it in took[1:])])
    left_out = f" Not installed and left out: {', '.join(rows.missing())}." if rows.missing() else ""
    text = "\n\nThe same beside code of the host: qemu's of the same bytes, as a process of Linux and on a bare computer without\n"
    text += "pages, and the compiler's of the same C.\n"
    text += "The time of a program that ends at once is taken off each of them, and what is less than a millisecond counts as one.\n"
    text += f"{left_out}\n\n".lstrip(" ") if left_out else "\n"
    return text + table(["row", "the program", *names, *(f"by {name}" for name in names)], timed)


# ---- who looks on


# The ratios of plays of 5,000,000 steps while each step was looked at, and what a line of commits took then.
LOOKED_AT_EACH_STEP = {"--report": "40 to 50", "--json": "40 to 50"}
COMMIT_BEFORE = 700


def looking_on(place):
    """Seconds of a run at which somebody looks on, and the ratio to the same run without."""
    looked = list(rows.looking_rows())
    alone = looked[0].beside[0].job
    jobs = [alone, *(row.job for row in looked)]
    took = [it.seconds for it in compare([job.command(place) for job in jobs], TURNS)]
    olds = [next((LOOKED_AT_EACH_STEP[word] for word in job.by if word in LOOKED_AT_EACH_STEP), "") for job in jobs]
    lines = [
        [f"`{' '.join(job.by)}`", f"{seconds:.3f}", f"{seconds / took[0]:.2f}", old] for job, seconds, old in zip(jobs, took, olds)
    ]
    text = "A run of 10,000,000 steps with 1000 calls: seconds of processor time, the least of "
    text += f"{TURNS} turns, and the ratio to the first.\n"
    text += "The old ratios are of plays of 5,000,000 steps, of which each was looked at:\n\n"
    return text + table(["by", "seconds", "ratio", "old ratio"], lines) + committing(place)


def committing(place):
    """What a log of commits takes."""
    [row] = rows.commit_rows()
    logged, alone = compare_row(row, place, TURNS)
    nanoseconds = (logged.seconds - alone.seconds) / row.count * 1e9
    text = f"\n\n`trace --commits` takes {nanoseconds:.0f} ns more a step than `run`, with the host's time for the file\n"
    return text + f"({COMMIT_BEFORE} when a line was put together piece by piece)."


# ---- a debugger


def debugging(place):
    """What a machine under a debugger takes, forward and back."""
    script = TOP / "trials" / "gdb" / "measure.py"
    ran = subprocess.run([sys.executable, script, place.xv6], stdout=subprocess.PIPE, text=True)
    if ran.returncode != 0:
        raise Failed("trials/gdb/measure.py: it needs gcc-riscv64-unknown-elf")
    return ran.stdout.rstrip("\n")


# ---- units


def call_rows():
    """Calls, by the difference of two counts of them, with the few steps of the loop around."""

    def called(which, printed, rounds):
        return Flat(Program("calls", ROUNDS=rounds, WHICH=which), stdout=SIXTEEN * rounds if printed else b""), rounds

    for name, which, printed in [
        ("getpid", "getpids", False),
        ("write of 16 bytes to the console", "prints", True),
        ("write and read of 16 bytes through a pipe", "pipes", False),
        ("write of 16 bytes to a file", "writes", False),
        ("write and read of 16 bytes of a file", "pairs", False),
    ]:
        yield Counted(name, "call", lambda n, w=which, p=printed: called(w, p, n), (200, 800))


def units(place):
    """Instructions of each other row."""
    counted = []
    for row in [*call_rows(), *(it for it in instructions.all_rows() if not instructions.stands_beside_plain(it))]:
        took = count_unit(row, place)
        counted.append([f"{row.name}, {row.unit}", figure(sum(took.values())), figure(instructions.own(took))])
        print(f"  {row.name}: {counted[-1][1]}", file=sys.stderr, flush=True)
    text = "Instructions of the host a unit (callgrind), also without memset, memcpy, memcmp, of which callgrind counts each byte.\n"
    text += "Calls have the steps of a loop around them in them:\n\n"
    return text + table(["row, unit", "instructions", "without"], counted) + copied_from(place)


def copied_from(place):
    """What a machine takes that becomes a copy of another one, as `explore` does."""
    said = []
    for frames, blocks in [(64, 100), (256, 2000)]:
        calls, spent = calls_of("Machine::copy_from", profile_of(rows.exploring(4, frames, blocks), place))
        if calls:
            size = 4096 * frames + 1024 * blocks
            said.append(f"{spent // calls:,} at {frames} frames and {blocks} blocks, which have {size:,} bytes")
    if not said:
        return ""
    return f"\n\n`Machine::copy_from`, by which `explore` goes back: instructions a call {'; '.join(said)}."


# ---- tools


def tools(place):
    """The commands on images of 1, 16 and 128 MB, full of files."""
    lines = []
    for blocks in (1024, 16384, 131072):
        folder = place.new_folder()
        elf = Program("exit").elf(place)
        content, said = images.many_blocks(blocks, elf)
        (folder / "image").write_bytes(content)
        (folder / "script").write_text("step 100\n")
        size = 1024 * blocks * 12 // 25
        (folder / "half").write_bytes(b"x" * size)
        (folder / "manifest").write_text("file /a half\nfile /b half\n")
        numbers = ["--size", str(blocks), "--inodes", "64"]
        jobs = [
            Command([place.xv6, "mkfs", *numbers, "manifest", "made"], folder),
            Command([place.xv6, "check", "image"], folder, said),
            *(make(blocks).command(place) for make in (rows.list_small, rows.get_small, rows.put_small)),
            Command([place.xv6, "run", "image", "script"], folder, stderr="halt 1 InitEnded 0"),
            Command([place.xv6, "run", "--save", "saved", "image", "script"], folder, stderr="halt 1 InitEnded 0"),
        ]
        took = [f"{it.seconds:.2f} s, {it.peak // 1024} MiB" for it in compare(jobs, TURNS)]
        lines.append([f"{blocks} ({blocks // 1024} MB)", *took])
    text = "Processor time, the program's and the host's for it, the least of three, and the peak of memory.\n"
    text += "`mkfs` makes an image that two files fill mostly; the others take a full one, of which `ls` lists the root, `get` reads\n"
    text += "180 bytes and `put` writes 100:\n\n"
    return text + table(["blocks", "`mkfs`", "`check`", "`ls`", "`get`", "`put`", "`run` of 100 steps", "with `--save`"], lines)


# What was measured on 2026-11-26, before the library made images and ran to events, and before the page had views, times and exercises:
# size, boot, million steps a second.
BEFORE = {
    "`libxv6.a`, from C": ["463 kB", "3.1 ms", "85"],
    "`libxv6.so`, from Python": ["414 kB", "2.8 ms", "83"],
    "`xv6 run --tlb`": ["1827 kB", "5.3 ms", "107"],
    "`xv6.html`, in Chromium": ["165 kB", "42 ms", "34"],
}
UNTIL_LINE = r"^run_until: [\d.]+ ns a step, (\d+) million steps a second$"
COPY_LINE = r"^copy of (\d+) frames and (\d+) blocks, ([\d.]+) MB: (\d+) us; memcpy (\d+) us into new memory, (\d+) us into memory that is there$"
LIBRARY_LINE = r"^%s: boot ([\d.]+) ms, [\d.]+ ns a step, (\d+) million steps a second$"
PAGE_LINES = [
    r"first prompt (\d+) ms",
    r"compiled in ([\d.]+) ms; first boot in ([\d.]+) ms, best of 100 ([\d.]+)",
    r"(\d+) steps replayed in (\d+) ms with (\d+) copies kept; back by one in ([\d.]+) ms",
    r"processor: ([\d.]+); with calls noted ([\d.]+);",
]


def told(words, *patterns):
    """The numbers that a script prints, by patterns: of each those of its first line."""
    said = all_told(words)
    return [re.search(pattern, said, re.M).groups() for pattern in patterns]


def all_told(words):
    """What a script prints."""
    said = subprocess.run([sys.executable, *map(str, words)], cwd=TOP, capture_output=True, text=True)
    if said.returncode:
        raise Failed(f"{words[0]}: {said.stderr}")
    return said.stdout


def size_of(path):
    return f"{path.stat().st_size // 1000} kB"


def page_row(page, place):
    """The page's size, boot and steps, and what else there is to say of it."""
    numbers = told(["web/measure.py", page, place.xv6, page.parent / "xv6.img"], *PAGE_LINES)
    [prompt], (compiled, first, best), (count, whole, copies, back), (rate, noted) = numbers
    more = f"""

The page: first prompt {prompt} ms after the load begins, module compiled in {compiled} ms, a later boot {best} ms, {int(count):,} steps
replayed in {whole} ms, back by one {back} ms at most with {copies} copies, {noted} million steps a second with each call noted."""
    return [size_of(page), f"{first} ms", f"{float(rate):.0f}"], more


# What functions of the library took of the stack while the slots of processes lay in the table itself, in bytes; the others took less.
STACK_BEFORE = {"xv6_boot": 437288, "xv6_free_space": 394664, "xv6_copy": 394520, "xv6_run": 29168, "xv6_steps": 26832}


def stacks(folder):
    """How much of the stack those functions of the library take that take most, and took."""
    with tempfile.TemporaryDirectory() as scratch:
        program = pathlib.Path(scratch) / "stack"
        words = ["cc", "-O2", "-pthread", f"-I{folder}", TOP / "bench" / "stack.c", folder / "libxv6.a", "-o", program]
        subprocess.run(words, check=True)
        said = subprocess.run([program, TOP / "user"], check=True, capture_output=True, text=True).stdout
    taken = {}
    for line in said.splitlines():
        name, number = line.split()
        taken[name] = max(int(number), taken.get(name, 0))
    most = sorted(STACK_BEFORE, key=lambda name: -taken[name])
    rest = max(number for name, number in taken.items() if name not in STACK_BEFORE)
    rows_of = [[f"`{name}`", f"{taken[name]:,}", f"{STACK_BEFORE[name]:,}"] for name in most]
    text = "\n\nBytes of the stack that a call takes (`bench/stack.c`); the old ones, of a library compiled unproved, with checks, while\n"
    text += "the slots of processes were in the table itself.\n"
    text += f"Each other function takes at most {rest:,}.\n\n"
    return text + table(["function", "stack", "old stack"], rows_of)


def copies(said):
    """What `run_until` and copies take, of what the script for the library printed."""
    lines = [[f"{frames} frames, {blocks} blocks", size, *times] for frames, blocks, size, *times in re.findall(COPY_LINE, said, re.M)]
    text = f"\n\nPython's `run_until`: {re.search(UNTIL_LINE, said, re.M)[1]} million steps a second.\n\n"
    text += "A copy of a machine that is closed at once (`bench/copies.c`), and the host's memcpy of as many bytes, microseconds:\n\n"
    return text + table(["machine", "MB", "copy", "memcpy into new memory", "into memory that is there"], lines)


def library(place):
    """The library and the page, where they are made: sizes, boots and steps, and the old ones."""
    folder, page = TOP / "out" / "library", TOP / "out" / "web" / "xv6.html"
    now, more, stack = {}, "", ""
    if (folder / "libxv6.so").exists():
        files = {"C": folder / "libxv6.a", "Python": folder / "libxv6.so", "xv6 run --tlb": place.xv6}
        said = all_told(["bench/library.py", folder, place.xv6])
        for key, (name, file) in zip(BEFORE, files.items()):
            boot, rate = re.search(LIBRARY_LINE % re.escape(name), said, re.M).groups()
            now[key] = [size_of(file), f"{boot} ms", rate]
        stack = stacks(folder) + copies(said)
    if page.exists() and any(map(shutil.which, ("chromium", "chromium-browser", "google-chrome"))):
        now[list(BEFORE)[-1]], more = page_row(page, place)
    head = ["", "size", "boot of 2 MB", "million steps a second", "old size", "old boot", "old steps"]
    text = "By `bench/library.py` and `web/measure.py`; the old ones are of 2026-11-26.\n\n"
    return text + table(head, [[name, *numbers, *BEFORE[name]] for name, numbers in now.items()]) + more + stack


# ---- lines, and times that others noted


def lines_of(pattern):
    """The lines of files, and those of them that are no comment, blank or import."""
    whole = own = 0
    for file in TOP.glob(pattern):
        for line in file.read_text().splitlines():
            whole += 1
            word = line.strip()
            own += bool(word) and not re.match(r"(//|--|use |pub use |ghost use |unfoldable pub use |mod |pub mod )", word)
    return whole, own


def lines():
    """Lines by kinds."""
    kinds = {
        "code": lines_of("crates/*/src/**/*.rt"),
        "definitions": lines_of("crates/*/specs/**/*.antt"),
        "definitions of the Unix": lines_of("crates/unixmodel/specs/**/*.antt"),
        "proofs": lines_of("crates/*/proofs/**/*.antt"),
    }
    edits = [len(list(TOP.glob(f"crates/*/{it}/*.edit"))) for it in ("must-fail", "edits")]
    text = "Of `crates/*/src`, `specs` and `proofs`, and without comments, blanks, imports.\n"
    text += f"Wrong bodies: {edits[0]} in the gate, {edits[1]} more.\n\n"
    rows_of = [[name, f"{whole:,}", f"{own:,}"] for name, (whole, own) in kinds.items()]
    return text + table(["kind", "lines", "without"], rows_of), kinds


NOTED = {"gate": "the gate, from nothing", "build": "the program, from nothing"}


def times(page):
    """The gate's and the build's times, as they were noted last; else the rows of the page."""
    lines = []
    for name, what in NOTED.items():
        note = TOP / "out" / "times" / name
        old = re.search(rf"^\| {re.escape(what)} \|.*$", page, re.M)
        if note.exists():
            it = json.loads(note.read_text())
            lines.append([what, it["minutes"], it["of processors"], it["processors"], it["commit"], it["date"]])
        elif old:
            lines.append([cell.strip() for cell in old[0].strip("|").split("|")])
    head = ["what", "minutes", "of one processor", "processors", "commit", "date"]
    return "As `make measure-gate` and `make build` noted them:\n\n" + table(head, lines), lines


# ---- the page


def machine():
    """The host: its processor, how many of them, and its memory."""
    model = re.search(r"model name\s*: (.*)", pathlib.Path("/proc/cpuinfo").read_text())
    memory = int(re.search(r"MemTotal:\s*(\d+)", pathlib.Path("/proc/meminfo").read_text())[1]) >> 20
    return f"{model[1] if model else 'a processor'}, {os.cpu_count()} processors, {memory} GiB, load {os.getloadavg()[0]:.1f}"


def head(given):
    """What the page begins with."""
    def git(*words):
        return subprocess.run(["git", *words], cwd=TOP, capture_output=True, text=True, check=True).stdout.strip()

    changed = " with changes" if git("status", "--porcelain", "-uno") else ""
    commit, today = given.commit or git("rev-parse", "--short=8", "HEAD") + changed, datetime.date.today().isoformat()
    program = given.program.read_bytes()
    return f"""# Measured

`make measure` (`bench/report.py`) writes this page whole: commit {commit}, {today}.
The machine: {machine()}.
The program: {len(program):,} bytes, whose SHA-256 begins with {hashlib.sha256(program).hexdigest()[:16]}.
Counts of instructions are the same in each run of one program; times are not, beside other work.
"""


def write_readme(instructions_a_step, kinds, noted):
    """The README's three numbers."""
    text = README.read_text()
    gate = next((it for it in noted if it[0] == NOTED["gate"]), None)
    code, definitions, proofs = (f"{kinds[it][0]:,}" for it in ("code", "definitions", "proofs"))
    if instructions_a_step is None:
        instructions_a_step = re.search(r"^(\S+) instructions of the host", text, re.M)[1]
    new = f"{instructions_a_step} instructions of the host a step. {code} lines of code, {definitions} of definitions, {proofs} of proofs.\n"
    new += f"The gate takes {gate[1]} minutes on {gate[3]} processors. " if gate else ""
    new += "[MEASURED](docs/MEASURED.md) says how each was got.\n"
    README.write_text(re.sub(r"(?<=the empty one -->\n)(?:.+\n)+", new, text))


def words_of_line():
    how = argparse.RawDescriptionHelpFormatter
    words = argparse.ArgumentParser(description=__doc__, formatter_class=how, usage=argparse.SUPPRESS)
    words.add_argument("program", metavar="PROGRAM", type=pathlib.Path, nargs="?", help="the built xv6")
    words.add_argument("--only", metavar="WORDS", help="prints the parts whose headings have these words, and writes nothing")
    words.add_argument("--commit", metavar="HASH", help="of which commit PROGRAM was built, if not of this one")
    words.add_argument("--lines", action="store_true", help="only counts lines anew")
    given = words.parse_args()
    if not given.lines and not (given.program and given.program.is_file()):
        words.error(f"{given.program or 'nothing'} is no program: `make build` makes crates/xv6/out/xv6")
    return given


def main():
    given = words_of_line()
    page = PAGE.read_text() if PAGE.exists() else ""
    counted, kinds = lines()
    noted_text, noted = times(page)
    if given.lines:
        PAGE.write_text(re.sub(r"(?<=## Lines\n\n).*?(?=\n\n## )", lambda _: counted, page, flags=re.S))
        write_readme(None, kinds, noted)
        return 0
    first = None
    with tempfile.TemporaryDirectory() as folder:
        place = compile_plain(Place(pathlib.Path(folder), given.program.resolve()))
        makers = {"Steps": lambda: steps(place), "Looking on": lambda: looking_on(place), "Debugging": lambda: debugging(place),
                  "Calls and other units": lambda: units(place), "Tools": lambda: tools(place),
                  "Sizes": lambda: library(place), "Lines": lambda: counted, "Gate and build": lambda: noted_text}
        parts = {}
        for name, make in makers.items():
            if given.only and given.only not in name:
                continue
            print(f"measure: {name}", file=sys.stderr, flush=True)
            try:
                made = make()
            except Failed as failed:
                print(f"measure: {name}: FAILED: {failed}", file=sys.stderr)
                return 1
            if name == "Steps":
                made, first = made
            parts[name] = made
    text = "\n".join(f"## {name}\n\n{part}\n" for name, part in parts.items())
    if given.only:
        print(text)
        return 0
    PAGE.write_text(head(given) + "\n" + text)
    write_readme(f"{first:.1f}", kinds, noted)
    print(f"{PAGE.relative_to(TOP)} and the README's numbers are written")
    return 0


if __name__ == "__main__":
    sys.exit(main())
