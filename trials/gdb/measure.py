#!/usr/bin/env python3
"""measure.py PROGRAM: what `PROGRAM gdb` takes for 36 million steps of a loop, forward and back, beside `PROGRAM run`.

It prints rows of Markdown, which docs/MEASURED.md has. This script sends the packets, in place of gdb: seconds are those of the
processor that the machine's side takes.
"""
import pathlib
import subprocess
import sys
import tempfile

import check
from packets import Session

# The loop has 36 million steps; a few thousand more are before and after it.
STEPS = 36_060_000

# The time at which the child is in its loop, and the parent waits.
IN_LOOP = 1000

# How many steps of the loop are measured.
LOOP = 36_000_000

TURNS = 3
MEGABYTES = 64


def symbols(folder):
    """The addresses of the loop's program by their names."""
    words = ["riscv64-unknown-elf-nm", folder / "loop.elf"]
    lines = subprocess.run(words, check=True, stdout=subprocess.PIPE, text=True).stdout.splitlines()
    return {line.split()[2]: int(line.split()[0], 16) for line in lines}


def run_seconds(program, folder):
    """The processor time of `run` over the loop, without the start of the program."""

    def once(steps):
        (folder / "short").write_text(f"step {steps}\n")
        words = ["/usr/bin/env", "bash", "-c", f"TIMEFORMAT='%U %S'; time {program} run loop.img short >/dev/null 2>&1"]
        timed = subprocess.run(words, check=True, cwd=folder, stderr=subprocess.PIPE, text=True).stderr
        return sum(float(it) for it in timed.split())

    return min(once(STEPS) - once(IN_LOOP) for _ in range(TURNS))


def forward_seconds(program, folder, packets, steps):
    """The processor time from within the loop on, for n steps, with these breaks and watches."""

    def once():
        with Session(program, folder, "loop.img") as session:
            session.go_to(IN_LOOP)
            for packet in packets:
                assert session.ask(packet) == "OK", packet
            session.order(f"stop-at event {IN_LOOP + steps}")
            session.ask("vCont;c")
            return session.took

    return min(once() for _ in range(TURNS))


def back_seconds(program, folder, packets, steps):
    """The processor time of going back over n steps of the loop, to the last write of what is watched."""
    with Session(program, folder, "loop.img") as session:
        session.go_to(IN_LOOP + steps)
        for packet in packets:
            assert session.ask(packet) == "OK", packet
        answer = session.ask("bc")
        assert "watch" in answer, answer
        return session.took


def step_back_seconds(program, folder):
    """The processor time of a step back at the end."""
    with Session(program, folder, "loop.img") as session:
        session.ask("vCont;c")
        session.ask("Hc0")
        session.ask("bs")
        return session.took


def peak_by(program, folder, *options):
    """The most memory of a session that goes to the end and back, in megabytes."""
    with Session(program, folder, "loop.img", *options) as session:
        session.ask("vCont;c")
        session.ask("bs")
        return session.peak()


def main():
    program = str(pathlib.Path(sys.argv[1]).resolve())
    with tempfile.TemporaryDirectory() as temporary:
        folder = pathlib.Path(temporary)
        check.make_image(program, ["loop"], folder)
        (folder / "script").write_text(f"step {STEPS}\n")
        at = symbols(folder)
        # Instructions of `main` before the loop, in its page: the loop never comes to them again.
        breaks = ["Hgp2.2", *(f"Z0,{at['main'] + 4 * index:x},4" for index in range(8))]
        watched = f"Z2,{at['cells'] + 8:x},8"
        own, other = ["Hgp2.2", watched], ["Hgp1.1", watched]
        run = run_seconds(program, folder) / STEPS
        print("A child's loop of 36 million steps under `gdb`, 256 frames, an image of 2000 blocks: nanoseconds of the processor")
        print("a step, and the ratio to `run`:\n")
        print("| what | nanoseconds a step | ratio |\n|---|---|---|")
        rows = [
            ("`run`", lambda: run),
            ("`continue`", lambda: forward_seconds(program, folder, [], LOOP) / LOOP),
            ("`continue`, 8 breakpoints in the loop's page", lambda: forward_seconds(program, folder, breaks, LOOP) / LOOP),
            ("`continue`, a watch in another process", lambda: forward_seconds(program, folder, other, LOOP) / LOOP),
            ("`continue`, a watch in the loop's process", lambda: forward_seconds(program, folder, own, LOOP) / LOOP),
            ("`reverse-continue` to the write before the loop", lambda: back_seconds(program, folder, own, LOOP) / LOOP),
        ]
        for words, measure in rows:
            took = measure()
            print(f"| {words} | {took * 1e9:.2f} | {took / run:.2f} |", flush=True)
        print(f"\n`reverse-stepi` after 36 million steps takes {step_back_seconds(program, folder) * 1000:.1f} ms.")
        least, most = (peak_by(program, folder, "--memory", str(it)) for it in (0, MEGABYTES))
        print(f"The program takes at most {least:.0f} MB with `--memory 0`, and {most:.0f} MB with `--memory {MEGABYTES}`.")
    return 0


if __name__ == "__main__":
    sys.exit(main())
