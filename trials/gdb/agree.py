#!/usr/bin/env python3
"""agree.py PROGRAM [RUNS] [SEED]: a run under `PROGRAM gdb` is the run of `PROGRAM run`.

Random scripts are given to the programs of this folder. Where a debugger only continues, the console has the bytes of `run`. At a
random time, reached forward, backward and in a session of its own, registers and memory are equal, and the registers are those that
`run --registers` prints of a machine that ran so many events.
"""
import pathlib
import random
import subprocess
import sys
import tempfile

import check
from packets import Session

IMAGES = [("ring",), ("starts", "sum"), ("fault",), ("reads",)]
PAGES = 4


def script_of(chance):
    """Lines of a random script."""
    lines = []
    for _ in range(chance.randint(1, 6)):
        word = chance.choice(["step", "step", "tick", "type", "keys"])
        if word == "step":
            lines.append(f"step {chance.randint(1, 3000)}")
        elif word == "tick":
            lines.append(f"tick {chance.randint(1, 3)}")
        elif word == "type":
            lines.append("type " + "".join(chance.choice("abc d") for _ in range(chance.randint(0, 9))))
        else:
            lines.append("keys " + bytes(chance.choice(b"ab\x08\x15\n\x04") for _ in range(3)).hex())
    return lines


def events_of(lines):
    """A line for each event of a script."""
    for line in lines:
        word, _, rest = line.partition(" ")
        if word in ("step", "tick"):
            yield from [f"{word} 1"] * int(rest)
        else:
            keys = bytes.fromhex(rest) if word == "keys" else rest.encode() + b"\n"
            yield from (f"keys {key:02x}" for key in keys)


def go_on(session):
    """Goes on until a target, or to the end: a stop before a process ends, and at a fault, is passed."""
    stop = session.ask("vCont;c")
    while "replaylog" not in stop and not is_there(session):
        stop = session.ask("vCont;c")


def go_back(session):
    stop = session.ask("bc")
    while "replaylog" not in stop and not is_there(session):
        stop = session.ask("bc")


def is_there(session):
    return session.target is not None and when(session) == session.target


def when(session):
    return int(bytes.fromhex(session.ask("qRcmd," + b"when".hex())).split()[1])


def aim(session, event):
    session.order(f"stop-at event {event}")
    session.target = event


def looks(session):
    """Registers and memory of each process."""
    found = {}
    for thread in session.ask("qfThreadInfo").removeprefix("m").split(","):
        session.ask(f"Hg{thread}")
        found[thread] = [session.ask("g"), *(session.ask(f"m{4096 * page:x},1000") for page in range(PAGES))]
    return found


def registers(looked):
    """The pc and x1 to x31 of a process."""
    words = [int.from_bytes(bytes.fromhex(looked[0][16 * index : 16 * index + 16]), "little") for index in range(33)]
    return [words[32], *words[1:32]]


def printed_registers(program, folder, image, lines, pid):
    """The same, as `run` prints them of a machine that ran these events."""
    (folder / "part").write_text("".join(f"{line}\n" for line in lines))
    words = [program, "run", "--registers", str(pid), image, "part"]
    told = subprocess.run(words, cwd=folder, stdout=subprocess.PIPE, stderr=subprocess.PIPE, text=True).stderr.splitlines()
    return [int(line.split()[1], 16) for line in told if line.startswith("  ") and " 0x" in line]


def try_times(program, folder, image, lines, chance):
    """Whether a random time is the same from each side."""
    events = list(events_of(lines))
    with Session(program, folder, image) as there:
        first = when(there)
        aim(there, chance.randint(first + 1, max(first + 1, len(events) - 1)))
        go_on(there)
        time = when(there)
        forward = looks(there)
        there.target = None
        there.order("stop-at event 0")
        go_on(there)
        if when(there) > time:
            aim(there, time)
            go_back(there)
        if when(there) != time or looks(there) != forward:
            return f"event {time}: another state on the way back"
    for thread, looked in forward.items():
        pid = int(thread.removeprefix("p").split(".")[0], 16)
        printed = printed_registers(program, folder, image, events[:time], pid)
        if printed != registers(looked):
            return f"event {time}: other registers of {pid}"
    return None


def try_run(program, folder, image):
    """Whether the console's bytes are those of `run`."""
    wanted = subprocess.run([program, "run", image, "script"], cwd=folder, stdout=subprocess.PIPE, stderr=subprocess.PIPE).stdout
    with Session(program, folder, image) as session:
        session.target = None
        # The line on a process that is about to end is not the console's.
        session.order("stop-at exit off")
        go_on(session)
        return None if session.console == wanted else f"{session.console!r} in place of {wanted!r}"


def main():
    program = str(pathlib.Path(sys.argv[1]).resolve())
    runs = int(sys.argv[2]) if len(sys.argv) > 2 else 200
    seed = sys.argv[3] if len(sys.argv) > 3 else "1"
    chance = random.Random(seed)
    bad = 0
    with tempfile.TemporaryDirectory() as temporary:
        folder = pathlib.Path(temporary)
        images = [check.make_image(program, names, folder) for names in IMAGES]
        for number in range(runs):
            lines = script_of(chance)
            image = chance.choice(images)
            (folder / "script").write_text("".join(f"{line}\n" for line in lines))
            fault = try_run(program, folder, image) or (number % 4 == 0 and try_times(program, folder, image, lines, chance))
            if fault:
                bad += 1
                print(f"run {number}: {image}, {lines}: {fault}")
    print(f"{runs} runs, {bad} bad, seed {seed}")
    return 1 if bad else 0


if __name__ == "__main__":
    sys.exit(main())
