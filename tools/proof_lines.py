#!/usr/bin/env python3
"""Counts what proofs cost, in the crates of the machine or in all: lines of definitions and proofs for each line of code,
functions with long contracts, and long files of proofs.

    tools/proof_lines.py [--all] [--list]     `--all` counts all crates, `--list` names long contracts and long files

Lines are counted without blank ones and comments. A contract is long if its clauses have more than 500 characters, a
file of proofs if it has more than 400 lines.
"""
import argparse
import pathlib
import re

CRATES = pathlib.Path(__file__).resolve().parent.parent / "crates"
MACHINE = """machine digests calls kernel programs file_transfers proc files console elf spaces vm pagetable frames pipe
ring_laws hart isa sv39 ram mount imagerules imagecheck imagemake migrate image tree name_rules inode balloc layout cache
blockdev unixmodel run_laws""".split()
LONG_CONTRACT, LONG_FILE = 500, 400


def lines_of(crate, folder, suffix):
    """How many lines the files of a folder have, without blank ones and comments."""
    mark = "//" if suffix == "rt" else "--"
    texts = (path.read_text() for path in (CRATES / crate / folder).rglob(f"*.{suffix}"))
    return sum(bool(line.strip()) and not line.strip().startswith(mark) for text in texts for line in text.splitlines())


def contracts_of(crate):
    """The name of each function with clauses, and how many characters these have."""
    for path in sorted((CRATES / crate / "src").rglob("*.rt")):
        name, length = None, 0
        for line in [*path.read_text().splitlines(), "fn end() {"]:
            found = re.match(r"\s*(?:pub(?:\(\w+\))? )?(?:unsafe |const )*fn (\w+)", line)
            if found:
                if length:
                    yield f"{crate}: {name}", length
                name, length, is_clause = found[1], 0, False
            elif name:
                is_clause = bool(re.match(r"\s+(?:requires|ensures)\b", line)) or is_clause and not re.match(r"\s*\{?$", line)
                length += len(line.strip()) if is_clause else 0


def main():
    """Prints the counts."""
    words = argparse.ArgumentParser(description=__doc__, formatter_class=argparse.RawDescriptionHelpFormatter)
    words.add_argument("--all", action="store_true", help="count all crates")
    words.add_argument("--list", action="store_true", help="name the long contracts and files")
    wishes = words.parse_args()
    crates = sorted(path.name for path in CRATES.iterdir()) if wishes.all else MACHINE
    code = sum(lines_of(crate, "src", "rt") for crate in crates)
    definitions = sum(lines_of(crate, "specs", "antt") for crate in crates)
    proofs = sum(lines_of(crate, "proofs", "antt") for crate in crates)
    long_contracts = [it for crate in crates for it in contracts_of(crate) if it[1] > LONG_CONTRACT]
    sizes = [(path, len(path.read_text().splitlines())) for crate in crates for path in (CRATES / crate / "proofs").rglob("*.antt")]
    long_files = [(path.relative_to(CRATES), size) for path, size in sizes if size > LONG_FILE]
    print(f"{len(crates)} crates: {code} lines of code, {definitions} of definitions, {proofs} of proofs")
    print(f"{(definitions + proofs) / code:.2f} lines of definitions and proofs a line of code")
    print(f"{len(long_contracts)} contracts of more than {LONG_CONTRACT} characters")
    print(f"{len(long_files)} files of proofs of more than {LONG_FILE} lines")
    if wishes.list:
        for name, size in sorted(long_contracts + long_files, key=lambda it: -it[1]):
            print(f"{size:6} {name}")


if __name__ == "__main__":
    main()
