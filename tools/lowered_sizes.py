#!/usr/bin/env python3
"""Prints which functions of a crate are large once they are lowered, dearest first, so that one knows which to cut before a check.

    cd crates/calls && rt lib && ../../tools/lowered_sizes.py
    tools/lowered_sizes.py crates/calls 30

The number before a function is its statements times the text of the types of all its locals, in thousands: its `Lts` takes
some 0.02 seconds for each, beside the half a second to two that any function takes. It reads what rt lib left in out/rlib.
"""
import json
import sys
from pathlib import Path

STATEMENTS = ("Assign", "Call", "If", "Match", "Switch", "Loop", "Drop", "While")
EXITS = ("Return", "Break", "Continue")


def statements(code):
    """How many statements a function's lowered code has."""
    if isinstance(code, list):
        return sum(statements(it) for it in code)
    if isinstance(code, dict):
        return sum((key in STATEMENTS) + statements(it) for key, it in code.items())
    return int(code in EXITS) if isinstance(code, str) else 0


def length(kind):
    """How long the text of a type is, about."""
    if isinstance(kind, dict):
        return sum(len(it) if key == "name" else 2 + length(it) for key, it in kind.items())
    if isinstance(kind, list):
        return sum(length(it) for it in kind)
    return 2 if isinstance(kind, str) else 0


def sizes(functions):
    """The size of each function with its statements, its locals and its name, largest first."""
    rows = []
    for name, function in functions:
        count, local = statements(function["body"]), function["locals"]
        text = sum(10 + length(it["ty"]) for it in local)
        rows.append((count * text / 1000, count, len(local), name))
    return sorted(rows, reverse=True)


def main(words):
    if "--help" in words or "-h" in words:
        print(__doc__ + "\nusage: lowered_sizes.py [FOLDER OF A CRATE, this one if left out] [HOW MANY LINES, 20 if left out]")
        return 0
    folders = [it for it in words if not it.isdigit()]
    counts = [int(it) for it in words if it.isdigit()]
    if len(folders) > 1 or len(counts) > 1:
        print("lowered_sizes.py: one folder and one number at most; --help says more", file=sys.stderr)
        return 2
    crate = Path(*folders).resolve()
    file = crate / "out" / "rlib" / f"{crate.name}.rlib" / "toolchain" / "mir.json"
    if not file.is_file():
        print(f"lowered_sizes.py: {file} is not there: run rt lib in a library's folder first", file=sys.stderr)
        return 1
    rows = sizes(json.loads(file.read_text()))
    print(f"{sum(it[0] for it in rows):8.1f}  in all, of {len(rows)} functions")
    for size, count, local, name in rows[: counts[0] if counts else 20]:
        print(f"{size:8.1f}  {name}: {count} statements, {local} locals")
    return 0


if __name__ == "__main__":
    sys.exit(main(sys.argv[1:]))
