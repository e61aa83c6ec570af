#!/usr/bin/env python3
"""Prints each path in the docs and Makefiles that leads to nothing, and each crate that the map (docs/ARCHITECTURE.md) lacks.

The status is 1 where there is one. `.ci/run` runs it.

A path is a word with a slash that begins with a folder of the top or ends in a known suffix. It may begin at the top, in crates/,
in a crate, in user-c/, or beside the file that names it. A word in capitals, as CRATE, and a star stand for anything. What is made
(out/, what `make` is asked to make, a target of a Makefile) and what a C text includes is not looked for.
"""
import pathlib
import re
import sys

TOP = pathlib.Path(__file__).resolve().parent.parent
FILES = ("*.md", "docs/*.md", "examples/*/*.md", "Makefile", "*/*/Makefile")
SUFFIX = re.compile(r"\.(antt|c|css|edit|h|html|js|ld|md|png|py|rs|rt|s|sh|svg|toml|txt)$")
WORD = re.compile(r"(?<![\w/.$)~-])(?:\.\.?/)*[A-Za-z_.][\w.*-]*(?:/[\w.*-]+)+")
NO_PATHS = re.compile(r"^#include .*|\bmake(?: (?!-)[\w./-]+)+")
TARGETS = re.compile(r"^[\w./% -]+:(?!=)")
CAPITALS = re.compile(r"(?<!\w)[A-Z]{2,}(?!\w)")


def is_there(word, file):
    """Whether a path leads to something: from the file's folder, the top, crates/ or a crate."""
    path = word.rstrip(".")
    if not path.endswith(".md"):
        path = CAPITALS.sub("*", path)
    places = [(file.parent, path)] + [(TOP, above + path) for above in ("", "crates/", "crates/*/", "user-c/")]
    return any(any(place.glob(it)) if "*" in it else (place / it).exists() for place, it in places)


def main():
    tops = {it.name for it in TOP.iterdir() if it.is_dir()}
    bad = 0
    for file in sorted(file for pattern in FILES for file in TOP.glob(pattern)):
        for number, line in enumerate(file.read_text().splitlines(), 1):
            line = NO_PATHS.sub("", line)
            if file.name == "Makefile":
                line = TARGETS.sub("", line)
            for word in WORD.findall(line):
                is_path = word.split("/")[0] in tops or SUFFIX.search(word)
                if is_path and "out" not in word.split("/") and not is_there(word, file):
                    print(f"{file.relative_to(TOP)}:{number}: there is no {word}", file=sys.stderr)
                    bad = 1
    known = (TOP / "docs" / "ARCHITECTURE.md").read_text()
    for crate in re.findall(r"^(\w+)(?: staticlib)?:", (TOP / "crates.txt").read_text(), re.M):
        if not re.search(rf"\b{crate}\b", known):
            print(f"docs/ARCHITECTURE.md: the map has no {crate}", file=sys.stderr)
            bad = 1
    return bad


if __name__ == "__main__":
    sys.exit(main())
