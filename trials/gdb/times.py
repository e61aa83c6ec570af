#!/usr/bin/env python3
"""times.py PROGRAM [COUNT] [SEED]: at random times a machine under `PROGRAM gdb` is a fresh machine that had so many events.

Each of COUNT times (50, if left out) of a random script for each program of this folder is reached forward, backward, and in a session of
its own. Registers, pages and `monitor when` are compared with a machine of the package cathompi, which `make library` makes; without
it with a session over a script of just these events.
"""
import pathlib
import random
import sys
import tempfile

import check
from agree import IMAGES, aim, events_of, go_back, go_on, looks, registers, script_of, when
from packets import Session

PACKAGE = check.TOP / "out" / "library"
PAGE_SIZE = 4096

# Scripts have at least so many events, so that times differ.
LEAST = 400


def machine_class():
    """The class of machines of the package; None where that is not made."""
    sys.path.insert(0, str(PACKAGE))
    try:
        from cathompi import Machine
    except ImportError:
        return None
    return Machine


def given(machine, lines):
    """Gives a machine its events, from lines of one each."""
    for line in lines:
        word, _, rest = line.partition(" ")
        if word == "step":
            machine.steps(1)
        elif word == "tick":
            machine.tick()
        else:
            machine.type(bytes.fromhex(rest))


def page_shown(machine, pid, number):
    """A page as `m` answers it, or an error where there is none."""
    page = machine.page(pid, number)
    return page.data.hex() if page else "E0e"


def shown_by(machine, process):
    """What `looks` returns of a process: the pc and x1 to x31, and pages."""
    pages = [page_shown(machine, process.pid, number) for number in range(process.size // PAGE_SIZE + 1)]
    return [process.pc, *process.registers[1:]], pages


def machine_shows(kind, image, lines):
    """The processes of a fresh machine that had these events."""
    with kind(image) as machine:
        given(machine, lines)
        return {it.pid: shown_by(machine, it) for it in machine.processes() if it.state != "ended"}


def session_shows(program, folder, image, lines):
    """The same by a session that goes to the end of a script of these events."""
    whole = (folder / "script").read_text()
    (folder / "script").write_text("".join(f"{line}\n" for line in lines))
    try:
        with Session(program, folder, image) as session:
            session.target = None
            go_on(session)
            return as_shown(looks(session)) if when(session) == len(lines) else None
    finally:
        (folder / "script").write_text(whole)


def as_shown(looked):
    """What a session shows, by pid."""
    return {int(name.removeprefix("p").split(".")[0], 16): (registers(it), it[1:]) for name, it in looked.items()}


def is_same(shown, wanted):
    """Whether a session shows what it must: pages up to the last that was looked at."""
    if shown.keys() != wanted.keys():
        return False
    pairs = [(shown[pid], wanted[pid]) for pid in shown]
    return all(one[0] == other[0] and all(a == b for a, b in zip(one[1], other[1])) for one, other in pairs)


def reach(session, time, move):
    """Moves to a time, and returns what is shown there; None where the way ended at another."""
    if when(session) != time:
        aim(session, time)
        move(session)
    return as_shown(looks(session)) if when(session) == time else None


def alone(program, folder, image, time):
    """What a session of its own shows at a time."""
    with Session(program, folder, image) as session:
        session.target = None
        return reach(session, time, go_on)


def by_one_session(program, folder, image, times):
    """What one session shows at these times: on the way forward, and on the way back."""
    with Session(program, folder, image) as session:
        session.target = None
        first = when(session)
        on = {time: reach(session, time, go_on) for time in sorted(times) if time >= first}
        back = {time: reach(session, time, go_back) for time in sorted(on, reverse=True)}
        return on, back


def try_image(program, folder, image, lines, times):
    """Faults of an image: times at which something else is shown, and how many were compared."""
    kind, events = machine_class(), list(events_of(lines))
    bytes_of = (folder / image).read_bytes()
    on, back = by_one_session(program, folder, image, times)
    compared, faults = 0, []
    for time in on:
        part = events[:time]
        wanted = machine_shows(kind, bytes_of, part) if kind else session_shows(program, folder, image, part)
        ways = {"forward": on[time], "backward": back[time], "alone": alone(program, folder, image, time)}
        if wanted is None or all(it is None for it in ways.values()):
            continue
        compared += 1
        faults += [f"{image}, event {time}, {way}: another state" for way, it in ways.items() if it is None or not is_same(it, wanted)]
    return compared, faults


def random_lines(chance):
    """A random script with not too few events."""
    lines = []
    while sum(1 for _ in events_of(lines)) < LEAST:
        lines += script_of(chance)
    return lines


def main():
    program = str(pathlib.Path(sys.argv[1]).resolve())
    count = int(sys.argv[2]) if len(sys.argv) > 2 else 50
    seed = sys.argv[3] if len(sys.argv) > 3 else "1"
    chance = random.Random(seed)
    bad = 0
    with tempfile.TemporaryDirectory() as temporary:
        folder = pathlib.Path(temporary)
        for names in IMAGES:
            image = check.make_image(program, names, folder)
            lines = random_lines(chance)
            (folder / "script").write_text("".join(f"{line}\n" for line in lines))
            total = sum(1 for _ in events_of(lines))
            times = {chance.randrange(1, total) for _ in range(count)}
            compared, faults = try_image(program, folder, image, lines, times)
            print(f"{image}: {len(times)} times, {compared} compared, {len(faults)} bad, seed {seed}", *faults, sep="\n", flush=True)
            bad += len(faults)
    return 1 if bad else 0


if __name__ == "__main__":
    sys.exit(main())
