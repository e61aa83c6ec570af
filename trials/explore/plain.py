#!/usr/bin/env python3
"""plain.py PROGRAM [COUNT]: the outcomes of small random programs under at most two timer interrupts, by a search that tries each of these
before each step and remembers nothing, are those of `PROGRAM explore --ticks 2`. It takes the library of `make library`.
"""
import pathlib
import sys
import tempfile

import check
import programs

LIBRARY = check.ROOT / "out/library"
TICKS = 2


def shape(machine):
    """What a machine shows at the end of a run."""
    first = machine.process(1)
    files = tuple((path, node.kind, machine.read(path)) for path, node in machine.files().items())
    return first.state, first.status, machine.console(), files


def search(cathompi, machine, left, found):
    """Notes how each run ends that goes on from a machine with that many interrupts at most. Where none is left it runs to its end."""
    try:
        while not machine.idle:
            if left and machine.running is not None:
                branch = machine.copy()
                branch.tick()
                search(cathompi, branch, left - 1, found)
                branch.close()
            if left:
                machine.steps(1)
            else:
                machine.run()
    except cathompi.Halted:
        pass
    found.add(shape(machine))


def follow(cathompi, image, script):
    """What a script leads to."""
    machine = cathompi.Machine(image, frames=int(check.FRAMES))
    try:
        for line in script.splitlines():
            word, count = line.split()
            (machine.steps if word == "step" else machine.tick)(int(count))
    except cathompi.Halted:
        pass
    return shape(machine)


def texts(count):
    """Random programs of two processes in which nobody sleeps."""
    seed = 0
    while count:
        text = programs.text_of(seed)
        if seed % 5 and "system SLEEP" not in text:
            yield seed, text
            count -= 1
        seed += 1


def main():
    program = str(pathlib.Path(sys.argv[1]).resolve())
    count = int(sys.argv[2]) if len(sys.argv) > 2 else 10
    if not (LIBRARY / "libxv6.so").exists():
        print("plain: left out, out/library isn't there (make library)")
        return
    sys.path.insert(0, str(LIBRARY))
    import cathompi
    with tempfile.TemporaryDirectory() as name:
        scratch = pathlib.Path(name)
        for seed, text in texts(count):
            path = check.make_image(program, scratch, f"p{seed}", text)
            image, plain = path.read_bytes(), set()
            search(cathompi, cathompi.Machine(image, frames=int(check.FRAMES)), TICKS, plain)
            folder = scratch / f"scripts{seed}"
            told, _status = check.explore(program, path, "--ticks", str(TICKS), "--scripts", str(folder))
            explored = {follow(cathompi, image, script.read_text()) for script in folder.glob("*.script")}
            if plain != explored:
                check.fail(path, "by a plain search:", plain, "and by explore:", explored, told)
    print(f"plain: {count} programs, the same outcomes with at most {TICKS} interrupts")


if __name__ == "__main__":
    main()
