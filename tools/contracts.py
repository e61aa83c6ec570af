#!/usr/bin/env python3
"""Looks for each contract that README.md ("What is proved") and docs/LADDER.md name; the status is 1 where one is not there.

    tools/contracts.py [--where]     `--where` prints where each is

A promise is an item of a list or a paragraph. It ends in names of functions with a contract, as `crate::function`,
`Type::method` or `crate::{f, g}`. Definitions are named as `IsDone in machine/specs/Gives`. `.ci/run` runs it.
"""
import collections
import pathlib
import re
import sys

TOP = pathlib.Path(__file__).resolve().parent.parent
FUNCTION = re.compile(r'( *)(?:pub(?:\(\w+\))? )?(?:unsafe |const |extern "C" )*fn (\w+)')
NAME = re.compile(r"`((?:\w+::)+(?:\w+|\{[\w, ]+\}))`")
DEFINITION = re.compile(r"`([\w-]+) in (\w+/(?:specs|proofs)/\w+)`")


def owner_of(line):
    """The type or trait of the first line of an `impl` or a `trait`."""
    while "<" in line:
        line, before = re.sub(r"<[^<>]*>", "", line.replace("->", "")), line
        if line == before:
            break
    return re.split(r"[:{]| where ", line.split(" for ")[-1])[0].split()[-1]


def functions():
    """The lines of each function with a contract, by its name after that of its crate, of its file or of its type."""
    found = collections.defaultdict(list)
    for file in sorted(TOP.glob("crates/*/src/**/*.rt")):
        owner, lines = "", file.read_text().splitlines()
        for at, line in enumerate(lines):
            if line.startswith(("impl", "pub trait", "unsafe impl", "trait")):
                owner = owner_of(line)
            elif line.startswith("}"):
                owner = ""
            head = FUNCTION.match(line)
            if head and has_contract(lines[at + 1 :], head[1]):
                for above in {file.relative_to(TOP).parts[1], file.stem, owner}:
                    found[f"{above}::{head[2]}"].append(f"{file.relative_to(TOP)}:{at + 1}")
    return found


def has_contract(lines, indent):
    """Whether `ensures` comes before the body that begins at this indent."""
    for line in lines:
        if line.strip().startswith("ensures"):
            return True
        if line.startswith(indent) and line[len(indent) :].startswith(("{", "}", "fn ", "pub fn ")):
            return False
    return False


def handed_on():
    """What a crate hands on from another one."""
    lists = [(file.parts[-3], it) for file in TOP.glob("crates/*/src/lib.rt") for it in re.findall(r"pub use ([^;]*);", file.read_text())]
    return {(crate, word) for crate, text in lists for word in re.findall(r"\w+", text)}


def names_of(promise):
    """The names of functions of a promise, one by one."""
    for name in NAME.findall(re.sub(r"\s+", " ", promise)):
        before, last = name.rsplit("::", 1)
        for word in re.findall(r"\w+", last):
            yield before.split("::")[-1], word, name


def promises(file, part=None):
    """The promises of a document, with the number of the line on which each begins."""
    text = file.read_text()
    first, last = 0, len(text)
    if part:
        first = text.index(f"\n## {part}\n")
        last = text.index("\n## ", first + 1)
    inside = re.sub(r"^```.*?^```$", lambda it: re.sub(r"[^\n]", " ", it[0]), text[first:last], flags=re.M | re.S)
    for it in re.finditer(r"^(?:- |\*\*)(?:.|\n(?![-\n#|]|\*\*))*", inside, re.M):
        yield text.count("\n", 0, first + it.start()) + 1, it[0]


def main(words):
    found, handed, bad = functions(), handed_on(), 0
    for file, part in ((TOP / "README.md", "What is proved"), (TOP / "docs" / "LADDER.md", None)):
        for line, promise in promises(file, part):
            names, at = list(names_of(promise)), f"{file.relative_to(TOP)}:{line}"
            if not names:
                print(f"{at}: this names no contract: {promise.splitlines()[0]}", file=sys.stderr)
                bad = 1
            for above, word, name in names:
                there = found.get(f"{above}::{word}") or (above, word) in handed and [it for key in found if key.endswith(f"::{word}") for it in found[key]]
                if not there:
                    print(f"{at}: no contract of `{word}` in {above}, for `{name}`", file=sys.stderr)
                    bad = 1
                elif words == ["--where"]:
                    print(f"{at}: {above}::{word} at {', '.join(sorted(set(there)))}")
            for word, place in DEFINITION.findall(promise):
                text = TOP / "crates" / (place + ".antt")
                if not text.is_file() or not re.search(rf"^ *(?:abbrev )?(?:pub )?(?:record |data |abbrev )?(?:pub )?{re.escape(word)}\b", text.read_text(), re.M):
                    print(f"{at}: no {word} in {place}", file=sys.stderr)
                    bad = 1
    return bad


if __name__ == "__main__":
    sys.exit(main(sys.argv[1:]))
