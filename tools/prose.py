#!/usr/bin/env python3
"""Prints words of comments, docs, help and messages that CONTRIBUTING.md ("Words") lists, and lines that are too long.

    tools/prose.py [BASE]      in the lines that differ from the commit BASE: that of origin/main, or the last one, if left out
    tools/prose.py FILE..      in whole files

The status is 1 where something was printed. `.ci/run` runs it. In .rt, .antt, .c, .h, .js, .py and .sh files it reads comments and
texts in quotes, in .md files all but code. A line has at most 120 characters, a row of a table or a line with a link 160.
"""
import pathlib
import re
import subprocess
import sys

TOP = pathlib.Path(__file__).resolve().parent.parent
MARKS = {".antt": "--", ".rt": "//", ".c": "//", ".h": "//", ".js": "//", ".py": "#", ".sh": "#"}
MOST, MOST_OF_ROWS = 120, 160


def listed_words():
    """The words that are not written, each with what to write instead, and with phrases in which it is right."""
    part = (TOP / "CONTRIBUTING.md").read_text().split("\n## Words\n", 1)[1].split("\n## ")[0]
    for row in re.findall(r"^\| (.*) \| (.*) \|(.*)\|$", part, re.M)[1:]:
        words, good, right = ([it.strip() for it in cell.split(",") if it.strip()] for cell in row)
        for word in words:
            yield re.compile(rf"\b{re.escape(word)}\b", re.I), ", ".join(good), [re.compile(re.escape(it), re.I) for it in right]


def prose_of(line, suffix):
    """What of a line is read: all of a document's but its code, the comment and the texts in quotes of a source's."""
    if suffix == ".md":
        return re.sub(r"`[^`]*`|\]\([^)]*\)", "", line)
    texts = [it for it in re.findall(r'"((?:[^"\\]|\\.)*)"', line) if " " in it]
    return " ".join([*texts, *line.split(MARKS[suffix], 1)[1:]])


def without_code(file):
    """A file's text, without the letters of a document's blocks of code."""
    text = file.read_text()
    return re.sub(r"^```.*?^```", lambda it: re.sub(r"\w", "`", it[0]), text, flags=re.M | re.S) if file.suffix == ".md" else text


def added(base):
    """The lines that differ from a commit: file, number, line."""
    name = number = None
    ran = subprocess.run(["git", "diff", "-U0", "--no-color", base], cwd=TOP, capture_output=True, text=True, check=True)
    for line in ran.stdout.splitlines():
        if line.startswith("+++ "):
            name = line[6:]
        elif line.startswith("@@"):
            number = int(re.search(r"\+(\d+)", line)[1]) - 1
        elif line.startswith("+"):
            number += 1
            yield name, number, line[1:]


def base_of():
    """The commit of origin/main, if there is one that is not this one; else the last one."""
    for words in (["merge-base", "HEAD", "origin/main"], ["rev-parse", "HEAD~1"]):
        ran = subprocess.run(["git", *words], cwd=TOP, capture_output=True, text=True)
        head = subprocess.run(["git", "rev-parse", "HEAD"], cwd=TOP, capture_output=True, text=True).stdout
        if ran.returncode == 0 and ran.stdout != head:
            return ran.stdout.strip()
    return "HEAD"


def faults(name, line, words):
    """What is wrong with a line."""
    suffix = pathlib.Path(name).suffix
    most = MOST_OF_ROWS if suffix == ".md" and (line.startswith("|") or "](" in line) else MOST
    if suffix in (".md", ".rt", ".antt") and len(line) > most and not (suffix == ".rt" and '"' in line):
        yield f"{len(line)} characters, at most {most}"
    is_table_of_words = name == "CONTRIBUTING.md" and line.startswith("| ")
    text = prose_of(line, suffix) if (suffix == ".md" or suffix in MARKS) and not is_table_of_words else ""
    for word, good, right in words:
        left = text
        for phrase in right:
            left = phrase.sub("", left)
        if word.search(left):
            yield f"`{word.search(left)[0]}`: write {good}"


def main(given):
    if "--help" in given:
        print(__doc__.strip())
        return 0
    files = [pathlib.Path(it).resolve() for it in given if pathlib.Path(it).is_file()]
    lines = ((str(it.relative_to(TOP)), n, line) for it in files for n, line in enumerate(without_code(it).splitlines(), 1))
    words, bad = list(listed_words()), 0
    for name, number, line in lines if files else added(given[0] if given else base_of()):
        for fault in faults(name, line, words):
            print(f"{name}:{number}: {fault}", file=sys.stderr)
            bad = 1
    return bad


if __name__ == "__main__":
    sys.exit(main(sys.argv[1:]))
