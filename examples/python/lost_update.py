#!/usr/bin/env python3
"""lost_update.py IMAGE: finds the schedules of /race in which an update is lost, and prints the script of one.

IMAGE is that of the page, out/web/xv6.img, which has /race: it has a child, and both add 1 to a digit in a file.
"""
import pathlib
import sys

from cathompi import Machine, schedules


def main(image: str) -> None:
    with Machine(pathlib.Path(image).read_bytes()) as machine:
        machine.run_until("$ ")
        machine.type("race\n")
        outcomes = schedules(machine)
        for outcome in outcomes:
            print(f"{outcome.value!r}: {len(outcome.steps)} schedules")
        lost = next(it for it in outcomes if it.value == b"race\n1\n$ ")
        print(f"first with a tick after {lost.steps[0]} steps:\n{lost.script}", end="")


if __name__ == "__main__":
    main(sys.argv[1])
