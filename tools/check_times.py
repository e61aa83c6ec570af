#!/usr/bin/env python3
"""Prints where the check of a crate spends its time: seconds by function or lemma file, dearest first.

    cd crates/calls && rm -rf out/incremental && rt check --jobs 1 && ../../tools/check_times.py

It reads when each file that the check kept in out/incremental was written, so it is right only after a check
from nothing with one job. `Proof` and `Answers` are the search for a function's goals, `Lts` and `Tie` follow the size
of its code.
"""
import collections
import os
import sys

KINDS = ("Lts", "Tie", "Proof", "Answers", "Invariants", "Goals", "Mir", "Symbol")


def files_by_time(folder):
    """When each checked file below a folder was written, and its name, earliest first."""
    found = []
    for at, _, names in os.walk(folder):
        checked = [name for name in names if name.endswith(".oantt")]
        found += [(os.stat(os.path.join(at, name)).st_mtime_ns, name) for name in checked]
    return sorted(found)


def seconds_by(files):
    """Seconds by kind of file, and by the function or lemma file that a file is for."""
    kinds, modules = collections.Counter(), collections.Counter()
    for (before, _), (after, name) in zip(files, files[1:]):
        seconds = (after - before) / 1e9
        parts = [it for it in name.split(".") if it not in ("oantt", "decls")]
        kinds[next((it for it in parts if it in KINDS), "others")] += seconds
        modules[".".join(it for it in parts if it not in KINDS)] += seconds
    return kinds, modules


def main(words):
    if "--help" in words or "-h" in words or len(words) > 1 or not all(it.isdigit() for it in words):
        print(__doc__ + "\nusage: check_times.py [HOW MANY LINES, 30 if left out]")
        return 0 if words and words[0] in ("--help", "-h") else 2
    files = files_by_time("out/incremental")
    if len(files) < 2:
        print("out/incremental holds nothing: run this in a crate's folder, after rt check --jobs 1", file=sys.stderr)
        return 1
    kinds, modules = seconds_by(files)
    print(f"{(files[-1][0] - files[0][0]) / 1e9:8.1f}  in all")
    for name, seconds in kinds.most_common():
        print(f"{seconds:8.1f}  {name}")
    print()
    for name, seconds in modules.most_common(int(words[0]) if words else 30):
        print(f"{seconds:8.1f}  {name}")
    return 0


if __name__ == "__main__":
    sys.exit(main(sys.argv[1:]))
