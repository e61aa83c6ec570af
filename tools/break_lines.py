#!/usr/bin/env python3
"""Breaks the lines of .antt and .rt files that are longer than 120 characters.

    tools/break_lines.py crates/vm        the files of a crate
    tools/break_lines.py FILE ..          these files
    tools/break_lines.py --list [PATH ..] says which lines are too long, and changes nothing

A line breaks where its brackets are nested least: before an operator (→ × ∙ ++ ∷), after `;`, `,` or `=`, at last before an argument.
What follows is indented further than the line, so it still belongs to it. An import becomes several, a comment goes on in a
second line. A literal that is longer stays. Proofs read the same, but are checked anew: run this when nothing else waits for them.
"""
import argparse
import re
import sys
from dataclasses import dataclass
from pathlib import Path

WIDTH = 120
TOP = Path(__file__).resolve().parent.parent

# What a line may break before, by how well it reads; a lower number reads better.
BEFORE = {"→": 0, "×": 1, "⊎": 1, "∙": 1, "then": 2, "else": 2, "∷": 2, "++": 2, "&&": 2, "||": 2, "≡": 4, "≤": 4, "<": 4, "==": 4, "at": 5, "in": 3, "let": 3}
# What a line may break after.
AFTER = {"=": 1, ";": 1, ",": 2}
ARGUMENT = 6
DEEPER = 8
OPENING, CLOSING = "([{", ")]}"

IMPORT = re.compile(r"^(?P<head>\s*(?:pub )?(?:ghost )?(?:pub )?use [^{]*\{)(?P<names>[^{}]*)(?P<tail>\};?)$")
COMMENT = re.compile(r"^(?P<head>\s*(?:--|///|//!|//) )(?P<words>.*)$")


@dataclass(frozen=True)
class Break:
    """Where a line may break: before the character at this index, at this depth of brackets."""

    index: int
    depth: int
    cost: int


def tokens(line):
    """The words and brackets of a line, each with its index; a literal is one word."""
    pattern = re.compile(r'"(?:\\.|[^"\\])*"|\'(?:\\.|[^\'\\])\'|[()\[\]{}]|[,;]|[^\s()\[\]{},;]+')
    return [(it.start(), it.group()) for it in pattern.finditer(line)]


def breaks(line):
    """Where a line may break, in order."""
    found, depth, last = [], 0, ""
    for index, token in tokens(line):
        if token in CLOSING:
            depth -= 1
        is_spaced = index > 0 and line[index - 1] == " "
        if is_spaced and last and token not in CLOSING and token not in ",;":
            cost = min(BEFORE.get(token, ARGUMENT), ARGUMENT if last == "=" and depth else AFTER.get(last, ARGUMENT))
            # An operator stays with what follows it.
            if last not in BEFORE and last not in (":", "λ", "if", "≢", "¬", "%", "/", "*", "+", "-", "^") and not (last.endswith(".") and cost == ARGUMENT):
                found.append(Break(index, depth, DEEPER * depth + cost))
        if token in OPENING:
            depth += 1
        last = token
    return found


def indent_of(line):
    return len(line) - len(line.lstrip(" "))


def first_part(line, least):
    """Where a line is to break first: the cheapest break that fits, the last of its kind; None where there is none."""
    fitting = [it for it in breaks(line) if least < it.index <= WIDTH]
    if not fitting:
        later = [it for it in breaks(line) if it.index > WIDTH]
        return later[0] if later else None
    cheapest = min(it.cost for it in fitting)
    return [it for it in fitting if it.cost == cheapest][-1]


def broken(line):
    """The lines that a line of code becomes."""
    base = indent_of(line)
    inner = base + (8 if line.lstrip().startswith(("let ", "ensures", "requires", "ghost ")) else 4)
    found, rest = [], line
    while len(rest) > WIDTH:
        at = first_part(rest, indent_of(rest) + 24)
        if at is None:
            break
        found.append(rest[: at.index].rstrip())
        rest = " " * inner + rest[at.index :]
    return [*found, rest]


def imports(line):
    """An import of many names as several of fewer."""
    parts = IMPORT.match(line)
    names, found, left = [it.strip() for it in parts["names"].split(",") if it.strip()], [], []
    for name in names:
        if left and len(parts["head"]) + len(", ".join([*left, name])) + len(parts["tail"]) > WIDTH:
            found.append(left)
            left = []
        left.append(name)
    return [f"{parts['head']}{', '.join(it)}{parts['tail']}" for it in [*found, left]]


def comments(line):
    """A comment in several lines."""
    parts = COMMENT.match(line)
    found, left = [], ""
    for word in parts["words"].split(" "):
        if left and len(parts["head"]) + len(left) + 1 + len(word) > WIDTH:
            found.append(left)
            left = word
        else:
            left = f"{left} {word}" if left else word
    return [parts["head"] + it for it in [*found, left]]


def is_going_on(last, line):
    """Whether a comment goes on in this line: a sentence of the last one, which is too long, has not ended."""
    parts = COMMENT.match(line)
    if not last or not parts or parts["head"] != last["head"] or re.match(r"[-|`#]", parts["words"]):
        return False
    return len(last.string) > WIDTH and not re.search(r"[.:|;]$", last["words"])


def flowing(lines):
    """The lines, where what follows a comment's line that is too long, and goes on with its sentence, is joined to it."""
    found, last = [], None
    for line in lines:
        if is_going_on(last, line):
            found[-1] += f" {COMMENT.match(line)['words']}"
        else:
            found.append(line)
        last = COMMENT.match(found[-1])
    return found


def joined(lines):
    """The lines, where imports from one file that follow one another are one, if one of them is too long."""
    found, names = [], []
    for line in [*lines, ""]:
        parts = IMPORT.match(line)
        if names and not (parts and parts["head"] == names[0]["head"]):
            if any(len(it.string) > WIDTH for it in names):
                found.append(f"{names[0]['head']}{', '.join(it['names'] for it in names)}{names[0]['tail']}")
            else:
                found += [it.string for it in names]
            names = []
        if parts:
            names.append(parts)
        else:
            found.append(line)
    return found[:-1]


def parts_of(line):
    """The lines that one line becomes."""
    if len(line) <= WIDTH:
        return [line]
    if IMPORT.match(line):
        return imports(line)
    if COMMENT.match(line):
        return comments(line)
    return broken(line)


def is_clause(line):
    """Whether a line of Rattle belongs to a contract: all else is laid out by rt fmt."""
    return bool(re.match(r"^\s*(ensures|requires|ghost|//|pub ghost|invariant|decreases)", line) or re.search(r"[≡≢×→λ≤∷∙]|\.(now|old|new)\b", line))


def files_of(path):
    path = Path(path)
    return sorted(it for it in path.rglob("*") if it.suffix in (".rt", ".antt") and "out" not in it.parts) if path.is_dir() else [path]


def main():
    parser = argparse.ArgumentParser(description=__doc__, formatter_class=argparse.RawDescriptionHelpFormatter)
    parser.add_argument("--list", action="store_true", help="only say which lines are too long")
    parser.add_argument("paths", nargs="*", default=[TOP / "crates"], help="files, or folders of crates")
    wanted = parser.parse_args()
    left = 0
    for file in (it for path in wanted.paths for it in files_of(path)):
        lines = file.read_text(encoding="utf-8").split("\n")
        made = [it for line in flowing(joined(lines)) for it in (parts_of(line) if file.suffix == ".antt" or is_clause(line) else [line])]
        if wanted.list:
            made = lines
        elif made != lines:
            file.write_text("\n".join(made), encoding="utf-8")
        for number, line in enumerate(made, 1):
            if len(line) > WIDTH:
                left += 1
                print(f"{file}:{number}: {len(line)} characters")
    return 1 if left else 0


if __name__ == "__main__":
    sys.exit(main())
