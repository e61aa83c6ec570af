#!/usr/bin/env python3
"""Compares the sentences of docs/STATUS.md with those of `crates/explanations/src/meanings.rt`, which `--explain` prints.

    tools/explained.py [--write]     `--write` puts the program's sentences into the page; lines without a row come last

The status is 1 where one differs or is missing. A row of the page is | `line` | sentence |. `.ci/run` runs it.
"""
import pathlib
import re
import sys

TOP = pathlib.Path(__file__).resolve().parent.parent
PAGE = TOP / "docs" / "STATUS.md"
ROW = re.compile(r"^\| `([^`]*)`([^|]*)\| ([^|]*) \|$", re.M)
FITS = {"BEGINNINGS": str.startswith, "ENDS": str.endswith, "IN_VAIN": str.__contains__}


def meanings():
    """Each line of the program, or its beginning, end or part, with how it fits a row, whether it is of `migrate`, and its sentence."""
    text = (TOP / "crates" / "explanations" / "src" / "meanings.rt").read_text()
    for name, body in re.findall(r"^const (\w+):(.*?)^(?=const|fn|enum|pub)", text + "fn", re.M | re.S):
        for line, means in re.findall(r'\(\s*"((?:[^"\\]|\\.)*)",\s*"((?:[^"\\]|\\.)*)",?\s*\)', body):
            yield line, FITS.get(name, str.__eq__), name == "MIGRATION", means[0].upper() + means[1:] + ("" if means[-1] in "?." else ".")


def main(words):
    page, bad, missing, taken = PAGE.read_text(), 0, [], set()
    for line, fits, is_migrated, sentence in meanings():
        rows = [row for row in ROW.finditer(page) if row[1] + row[2] not in taken and fits(row[1], line) and is_migrated == ("migrate" in row[2])]
        taken.update(row[1] + row[2] for row in rows)
        if not rows:
            missing.append(f"| `{line}` | {sentence} |\n")
        for row in rows:
            if row[3] != sentence:
                print(f"docs/STATUS.md: `{row[1]}`: the program says: {sentence}", file=sys.stderr)
                page, bad = page.replace(row[0], f"| `{row[1]}`{row[2]}| {sentence} |"), 1
    for row in missing:
        print(f"docs/STATUS.md has no row {row}", end="", file=sys.stderr)
    if words == ["--write"]:
        head = "\n## Other lines\n\n| line | means |\n|---|---|\n"
        new = "".join(missing)
        PAGE.write_text(page.replace(head, head + new) if head in page else page + (head + new if missing else ""))
        return 0
    return int(bad or bool(missing))


if __name__ == "__main__":
    sys.exit(main(sys.argv[1:]))
