#!/usr/bin/env python3
"""check.py PROGRAM: what `PROGRAM explore` finds of the examples in `examples/races` and of 50 random programs.

`explore` and `explore --fine` give the same outcomes. Each script leads `PROGRAM run` to its outcome: console, status, files. Programs with
races have at least two outcomes, their corrected forms one; two locks end as a deadlock by one interrupt. The outcomes of ten small programs
with at most two interrupts are those of a search that tries each interrupt before each step and remembers nothing (plain.py). Nothing
claims all schedules that left something out. 100,000 states take less than 60 s of a processor and 1 GB, and among their outcomes are all
four of the counter with three children; with 256 frames and 2,000 blocks a state takes at most 1 ms, in the best of three runs.
"""
import pathlib
import re
import resource
import subprocess
import sys
import tempfile

import programs

HERE = pathlib.Path(__file__).resolve().parent
ROOT = HERE.parent.parent
RACES = ROOT / "examples/races"
LIBRARY = ROOT / "examples/assembly/lib.s"
FRAMES = "64"
CLAIM = "under all schedules"
HEAD = re.compile(r"(\d+) outcomes? under (.*): (\d+) states?, (\d+) ends?")
LINE = re.compile(r"  (\d+) ticks?   (halt 1 InitEnded (-?\d+)|deadlock|nobody is ready)   "
                  r"(?:\d+ ends?|drawn)   console (\".*?\")(?:\.\.\.)?   files ([0-9a-f]{8})(?:   (.*))?$")
SUM, FACTOR, MASK = 0xcbf29ce484222325, 0x100000001b3, (1 << 64) - 1

# How many outcomes a program has.
WANTED = {
    "counter": 2, "counter_2": 3, "counter_s": 2, "counter_3": 4, "counter_locked": 1, "counter_locked_2": 1,
    "counter_locked_s": 1, "locks_ordered_s": 1,
    "writers": 2, "writers_ordered": 1, "locks": 2, "locks_s": 2, "locks_ordered": 1, "child": 2, "child_right": 1,
}

# Those that are not explored with --fine, too, and the words that they are explored with.
LARGE = {"counter_2": [], "counter_locked_2": [], "counter_3": ["--states", "20000000"]}


def fail(*words):
    print("check-explore:", *words, file=sys.stderr)
    sys.exit(1)


def seconds():
    """The processor time of the programs that ran."""
    used = resource.getrusage(resource.RUSAGE_CHILDREN)
    return used.ru_utime + used.ru_stime


def explore(program, image, *words, frames=FRAMES):
    """What is printed, and the exit status."""
    ran = subprocess.run([program, "explore", "--frames", frames, *words, str(image)], capture_output=True, text=True, errors="replace")
    if ran.returncode not in (0, 1, 3) or ran.stderr:
        fail(image, words, "status", ran.returncode, ran.stderr)
    return ran.stdout, ran.returncode


def outcomes_of(text):
    """The outcomes: what each line says, without its count of ends, and its script."""
    found = []
    for line in text.splitlines():
        told = LINE.match(line)
        if told:
            found.append(told)
    head = HEAD.match(text)
    if not head or int(head[1]) != len(found):
        fail("no outcomes are told in", text)
    return found


def shown(outcome):
    return outcome[2], outcome[4], outcome[5]


def summed(total, data):
    for byte in data:
        total = ((total ^ byte) * FACTOR) & MASK
    return total


def entries_of(program, image, path):
    """Name and type of each entry of a directory."""
    listed = subprocess.run([program, "ls", str(image), path], capture_output=True, check=True).stdout
    for line in listed.splitlines():
        name, kind, _number, _size = line.split()
        if name not in (b".", b".."):
            yield name, int(kind)


def files_sum(program, image):
    """The sum that `explore` prints of the files of an image."""
    nodes, folders = [], [b""]
    while folders:
        folder = folders.pop()
        for name, kind in entries_of(program, image, (folder + b"/").decode()):
            path = folder + b"/" + name
            data = b""
            if kind == 1:
                folders.append(path)
            elif kind == 2:
                data = subprocess.run([program, "get", str(image), path.decode()], capture_output=True, check=True).stdout
            nodes.append((path, kind, summed(SUM, data)))
    total = SUM
    for path, kind, node in nodes:
        total = summed(summed(total, path), node.to_bytes(8, "little"))
        total = summed(total, kind.to_bytes(2, "little"))
    return f"{(total ^ total >> 32) % (1 << 32):08x}"


def quoted(data):
    """Bytes as they are shown of the console: letters alone are printed here."""
    return '"' + data[:40].decode().replace("\n", "\\n") + '"'


def replay(program, image, outcome, script):
    """Fails unless a script leads to its outcome."""
    after = script.with_suffix(".after")
    ran = subprocess.run([program, "run", "--frames", FRAMES, "--report", "--save", str(after), str(image), str(script)], capture_output=True)
    told = ran.stderr.decode()
    end = told.splitlines()[-1]
    is_idle = "stopped: nobody is ready" in told
    wanted = outcome[2] if outcome[3] is not None else "running"
    if end != wanted or is_idle != (outcome[3] is None):
        fail(image, script, "ends with", end, "not", outcome[2])
    if quoted(ran.stdout) != outcome[4]:
        fail(image, script, "prints", ran.stdout, "not", outcome[4])
    if files_sum(program, after) != outcome[5]:
        fail(image, script, "leaves other files")


def replayed(program, image, folder, words=()):
    """Explores an image, replays each script, and returns what was told and found."""
    text, status = explore(program, image, "--scripts", str(folder), *words)
    found = outcomes_of(text)
    if [int(one[1]) for one in found] != sorted(int(one[1]) for one in found):
        print("note: outcomes aren't in the order of their interrupts:", image)
    for number, outcome in enumerate(found, 1):
        replay(program, image, outcome, folder / f"{number}.script")
    return text, found, status


def agree(program, image, folder):
    """Explores an image both ways, replays each script, and returns what was told and found."""
    text, found, status = replayed(program, image, folder)
    fine, fine_status = explore(program, image, "--fine")
    if {shown(one) for one in found} != {shown(one) for one in outcomes_of(fine)} or status != fine_status:
        fail(image, "has other outcomes with --fine:", text, fine)
    return text, found, status


def check_races(program, scratch):
    subprocess.run(["make", "-s", "-C", str(RACES), f"XV6={program}"], check=True)
    for name, count in WANTED.items():
        image = RACES / f"out/{name}.img"
        begun = seconds()
        if name in LARGE:
            text, found, status = replayed(program, image, scratch / name, LARGE[name])
        else:
            text, found, status = agree(program, image, scratch / name)
        if len(found) != count or CLAIM not in text or status != (0 if count == 1 else 1):
            fail(name, "has not", count, "outcomes:", text)
        took = seconds() - begun
        print(f"{name}: {text.splitlines()[0]}, {took:.1f} s")
        if took > 120:
            fail(name, "takes", took)
        if name.startswith("counter") and "locked" not in name:
            statuses = sorted(int(one[3]) for one in found)
            if statuses != list(range(1, count + 1)):
                fail(name, "has the statuses", statuses)
        if name in ("locks", "locks_s"):
            if not re.search(r"  1 tick   deadlock", text) or "it itself and pid 2 (/init) hold" not in text \
                    or "pid 1 (/init)" not in text:
                fail(name, "has no deadlock by one interrupt:", text)


def make_image(program, scratch, name, text):
    """An image whose first program is of a text."""
    (scratch / f"{name}.s").write_text(text)
    (scratch / "other.s").write_text(programs.OTHER)
    (scratch / "lib.s").write_text(LIBRARY.read_text())
    for source in (name, "other"):
        subprocess.run([program, "as", f"{source}.s"], check=True, cwd=scratch)
    (scratch / "manifest").write_text(f"file /init {name}\nfile /other other\n")
    subprocess.run([program, "mkfs", "--size", "64", "--inodes", "16", "manifest", f"{name}.img"], check=True, cwd=scratch)
    return scratch / f"{name}.img"


def check_random(program, scratch, count):
    states = 0
    for seed in range(count):
        image = make_image(program, scratch, f"p{seed}", programs.text_of(seed))
        text, found, status = agree(program, image, scratch / f"scripts{seed}")
        states += int(HEAD.match(text)[3])
    print(f"{count} random programs: {states} states")


SPIN = "start:      j start\n"

CALLS = """\
start:      li a7, 11
            ecall
            j start
"""

CLOCK = """\
start:      li a7, 14
            ecall
            li a7, 2
            ecall
"""


def check_claims(program, scratch):
    for name, text in [("spin", SPIN), ("calls", CALLS), ("clock", CLOCK)]:
        image = make_image(program, scratch, name, text)
        for words in ([], ["--fine"]):
            told, status = explore(program, image, "--states", "2000", *words)
            if CLAIM in told or status not in (1, 3):
                fail(name, words, "claims all schedules:", told)
    image = RACES / "out/counter.img"
    for words in (["--states", "20"], ["--ticks", "0"], ["--ticks", "1"]):
        told, status = explore(program, image, *words)
        if CLAIM in told or "not tried" not in told:
            fail("counter", words, "claims all schedules:", told)
    told, status = explore(program, image, "--status", "2")
    if status != 1 or "not the wanted outcome" not in told:
        fail("counter isn't found to end otherwise:", told)
    told, status = explore(program, RACES / "out/counter_locked.img", "--status", "2")
    if status != 0:
        fail("counter_locked is found to end otherwise:", told)
    told, status = explore(program, image, "--ticks", "0", "--random", "100")
    if "new outcome" not in told or CLAIM in told:
        fail("no runs are drawn:", told)


def state_cost(program, image):
    """How many milliseconds a state takes with 256 frames."""
    begun = seconds()
    text, _status = explore(program, image, "--states", "3000", frames="256")
    return (seconds() - begun) * 1000 / int(HEAD.match(text)[3])


def check_speed(program, scratch):
    begun = seconds()
    text, _status = explore(program, RACES / "out/counter_3.img", "--states", "100000")
    took = seconds() - begun
    peak = resource.getrusage(resource.RUSAGE_CHILDREN).ru_maxrss / 1024
    states = int(HEAD.match(text)[3])
    print(f"{states} states: {took:.1f} s, {peak:.0f} MB")
    if states < 100000 or took > 60 or peak > 1024:
        fail("100,000 states take", took, "s and", peak, "MB")
    statuses = sorted(int(one[3]) for one in outcomes_of(text))
    if statuses != [1, 2, 3, 4]:
        fail("counter_3 has the statuses", statuses)
    image = scratch / "large.img"
    subprocess.run([program, "mkfs", "--size", "2000", "--inodes", "200", "counter_2.manifest", str(image)], check=True, cwd=RACES / "out")
    cost = min(state_cost(program, image) for _run in range(3))
    print(f"256 frames, 2,000 blocks: {cost:.2f} ms a state")
    if cost > 1:
        fail("a state takes", cost, "ms")


def main():
    program = str(pathlib.Path(sys.argv[1]).resolve())
    count = int(sys.argv[2]) if len(sys.argv) > 2 else 50
    with tempfile.TemporaryDirectory() as name:
        scratch = pathlib.Path(name)
        check_races(program, scratch)
        check_claims(program, scratch)
        check_random(program, scratch, count)
        check_speed(program, scratch)
    print("explore: as wanted")


if __name__ == "__main__":
    main()
