#!/usr/bin/env python3
"""Tries the further wrong bodies of crates, crates/NAME/edits: the prover must refuse each of them.

    tools/edits.py            those of every crate: some five hours of a processor, by estimate
    tools/edits.py ram vm     those of these crates

The gate tries those of crates/*/must-fail. Those of crates/*/edits have the same form: whoever changes a crate tries
its own by this command. Those of its must-fail are tried with them, but not again where nothing changed. The status is
0 where all are refused. In proved libraries it begins with what rt check kept.
"""
import shutil
import subprocess
import sys
from pathlib import Path

ROOT = Path(__file__).resolve().parent.parent
CRATES = ROOT / "crates"


def edits_of(names):
    """Each edit of these crates, and where the gate would look for it."""
    edits = sorted(it for name in names for it in (CRATES / name / "edits").glob("*.edit"))
    return [(it, it.parent.parent / "must-fail" / it.name) for it in edits]


def main(words):
    known = sorted(it.parent.name for it in CRATES.glob("*/edits"))
    if any(it in ("-h", "--help") for it in words):
        print(__doc__.strip())
        return 0
    unknown = [it for it in words if it not in known]
    if unknown:
        print(f"tools/edits.py: {unknown[0]} has no edits here; those that have: {' '.join(known)}", file=sys.stderr)
        return 2
    names = sorted(set(words)) or known
    edits = edits_of(names)
    twice = [to for _, to in edits if to.exists()]
    if twice:
        print(f"tools/edits.py: {twice[0].relative_to(ROOT)} is there already", file=sys.stderr)
        return 2
    try:
        for edit, to in edits:
            to.parent.mkdir(exist_ok=True)
            shutil.copyfile(edit, to)
        return subprocess.run(["rt", "must-fail", *names], cwd=ROOT).returncode
    finally:
        for _, to in edits:
            to.unlink(missing_ok=True)


if __name__ == "__main__":
    sys.exit(main(sys.argv[1:]))
