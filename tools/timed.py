#!/usr/bin/env python3
"""Runs a command, and notes in out/times/NAME how long it took: `make measure` writes that into docs/MEASURED.md.

    tools/timed.py NAME COMMAND..      as `make measure-gate` and `make build` call it; the status is the command's

A command that fails is not noted. The note is JSON: commit, date, processors, minutes by the clock and of processors.
"""
import datetime
import json
import os
import pathlib
import resource
import subprocess
import sys
import time

TOP = pathlib.Path(__file__).resolve().parent.parent


def main(words):
    if len(words) < 2:
        print(__doc__.strip())
        return 2
    start = time.monotonic()
    status = subprocess.run(words[1:], cwd=TOP).returncode
    used = resource.getrusage(resource.RUSAGE_CHILDREN)
    if status == 0:
        commit = subprocess.run(["git", "rev-parse", "--short=8", "HEAD"], cwd=TOP, capture_output=True, text=True).stdout.strip()
        note = {
            "commit": commit,
            "date": datetime.date.today().isoformat(),
            "processors": len(os.sched_getaffinity(0)),
            "minutes": round((time.monotonic() - start) / 60),
            "of processors": round((used.ru_utime + used.ru_stime) / 60),
        }
        (TOP / "out" / "times").mkdir(parents=True, exist_ok=True)
        (TOP / "out" / "times" / words[0]).write_text(json.dumps(note) + "\n")
    return status


if __name__ == "__main__":
    sys.exit(main(sys.argv[1:]))
