#!/usr/bin/env python3
"""selftest_table.py: prints the tests of user-c/selftest/tests.h and the rule that each is of, for docs/SELFTEST.md.
selftest_table.py --check: says whether it has them so."""
import pathlib
import re
import sys

TOP = pathlib.Path(__file__).resolve().parent.parent


def table():
    """A row a test of tests.h."""
    text = (TOP / "user-c/selftest/tests.h").read_text()
    rows = re.findall(r'^TEST\((\w+), "(.*)"\)$', text, re.MULTILINE)
    return "\n".join(["| test | rule |", "|---|---|", *(f"| `{name}` | {rule} |" for name, rule in rows)]) + "\n"


def main(words):
    if words != ["--check"]:
        print(table(), end="")
        return 0
    if table() in (TOP / "docs/SELFTEST.md").read_text():
        print("docs/SELFTEST.md has the tests")
        return 0
    print("docs/SELFTEST.md: put what tools/selftest_table.py prints at its end")
    return 1


if __name__ == "__main__":
    sys.exit(main(sys.argv[1:]))
