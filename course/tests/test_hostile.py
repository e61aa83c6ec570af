"""Hostile submissions: each has a result, in its steps, in right XML, JSON and HTML; what is said of it is `expected`.

It needs the program that the variable XV6 names, and no compiler. `test_hostile.py --write` writes `expected` anew.
"""

import html.parser
import json
import os
import pathlib
import re
import subprocess
import sys
import tempfile
import unittest
import xml.etree.ElementTree

from programs import HERE, TOP, assemble, assemble_user

FOLDER = HERE / "hostile"
EXPECTED = FOLDER / "expected"
VOID = {"meta", "link", "br", "img", "input", "hr"}


class Balance(html.parser.HTMLParser):
    """Looks whether each element that begins ends."""

    def __init__(self):
        super().__init__()
        self.open = []

    def handle_starttag(self, tag, attrs):
        if tag not in VOID:
            self.open.append(tag)

    def handle_endtag(self, tag):
        assert self.open and self.open[-1] == tag, f"</{tag}> after {self.open}"
        self.open.pop()


def make_of_host(folder, programs):
    """Submissions that are hostile as files of the host, by name: what makes each."""

    def large(path):
        with open(path, "wb") as out:
            out.write((programs / "echo").read_bytes())
            out.truncate(64 << 20)

    def many(path):
        path.write_bytes((programs / "echo").read_bytes())
        for number in range(5000):
            (path.parent / f"<&>{number}").touch()

    made = {
        "a_link": lambda path: path.symlink_to(programs / "echo"),
        "a_folder": pathlib.Path.mkdir,
        "a_queue": os.mkfifo,
        "empty": pathlib.Path.touch,
        "a_text": lambda path: path.write_text("#!/bin/sh\necho ada\n"),
        "large": large,
        "many_files": many,
        "nothing": lambda path: None,
    }
    for name, make in made.items():
        (folder / name).mkdir()
        make(folder / name / "answer")
    return list(made)


def make_of_texts(folder):
    """Submissions that are hostile as they run."""
    calls = (FOLDER / "calls.s").read_text()
    names = sorted(path.stem for path in FOLDER.glob("*.s") if path.stem != "calls")
    for name in names:
        (folder / name).mkdir()
        assemble(FOLDER / f"{name}.s", folder / name / "answer", calls)
    return names


def grade(rubric, folder, out):
    """Grades a submission in all forms, looks whether they are right, and returns what was printed, without times."""
    command = [sys.executable, TOP / "course" / "grade.py", "--status", "graded", "--seed", "ada"]
    forms = ["--gradescope", out / "results.json", "--junit", out / "junit.xml", "--html", out / "html"]
    done = subprocess.run([*command, *forms, rubric, folder], capture_output=True, text=True, timeout=600)
    assert done.returncode == 0, done.stderr
    results = json.loads((out / "results.json").read_text())
    suite = xml.etree.ElementTree.parse(out / "junit.xml").getroot()[0]
    assert len(suite) == len(results["tests"]) == int(suite.get("tests"))
    assert all(len(json.dumps(test)) < 100_000 for test in results["tests"])
    page = Balance()
    page.feed((out / "html" / "index.html").read_text())
    assert not page.open, page.open
    lines = [line for line in done.stdout.split("\n") if not line.startswith("Checked by")]
    return re.sub(r"\(\d+ ms, ", "(", "\n".join(lines))


def grade_all():
    """What the grader prints of all hostile submissions."""
    text = []
    with tempfile.TemporaryDirectory() as name:
        here = pathlib.Path(name)
        for part in ("programs", "class", "out"):
            (here / part).mkdir()
        assemble_user(here / "programs")
        rubric = here / "programs" / "rubric.toml"
        rubric.write_text((FOLDER / "hostile.toml").read_text())
        names = make_of_texts(here / "class") + make_of_host(here / "class", here / "programs")
        for submission in sorted(names):
            out = here / "out" / submission
            out.mkdir()
            text.append(f"---- {submission}\n{grade(rubric, here / 'class' / submission, out)}")
    return "".join(text)


class Hostile(unittest.TestCase):
    maxDiff = None

    def test_each_has_its_result(self):
        self.assertEqual(grade_all(), EXPECTED.read_text())


if __name__ == "__main__":
    if sys.argv[1:] == ["--write"]:
        EXPECTED.write_text(grade_all())
    else:
        unittest.main()
