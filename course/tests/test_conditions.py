"""Each condition of a rubric holds or not, over programs of user/ and of conditions/, and what is said is `expected`.

It needs the program that the variable XV6 names, and no compiler. `test_conditions.py --write` writes `expected` anew.
"""

import json
import os
import pathlib
import re
import shutil
import subprocess
import sys
import tempfile
import unittest

from programs import HERE, TOP, assemble, assemble_user

FOLDER = HERE / "conditions"
EXPECTED = FOLDER / "expected"


def make(here):
    """The rubrics with what is beside them, and a submission."""
    rubrics, submission = here / "rubrics", here / "ada"
    rubrics.mkdir()
    submission.mkdir()
    assemble_user(rubrics)
    for path in FOLDER.iterdir():
        if path.suffix in (".toml", ".py", ".play"):
            shutil.copy(path, rubrics)
    calls = (HERE / "hostile" / "calls.s").read_text()
    for text in FOLDER.glob("*.s"):
        assemble(text, submission / text.stem, calls)
    shutil.copy(rubrics / "echo", submission / "say")
    shutil.copy(FOLDER / "answer.script", submission)


def grade(here, name, *words):
    """What the grader prints, without times, and its status."""
    command = [sys.executable, TOP / "course" / "grade.py", *words, here / "rubrics" / name, here / "ada"]
    done = subprocess.run(command, capture_output=True, text=True, timeout=600)
    text = re.sub(r"\(\d+ ms, ", "(", done.stdout + done.stderr)
    return re.sub(r"(rubric|image) [0-9a-f]{64}", r"\1 SHA-256", text) + f"status {done.returncode}\n"


def grade_both():
    """What the grader prints of conditions that hold, and of those that don't."""
    with tempfile.TemporaryDirectory() as name:
        here = pathlib.Path(name)
        make(here)
        return "".join(f"---- {rubric}\n{grade(here, rubric)}" for rubric in ("right.toml", "wrong.toml"))


class Conditions(unittest.TestCase):
    maxDiff = None

    def test_what_is_said(self):
        self.assertEqual(grade_both(), EXPECTED.read_text())

    def test_results_are_the_same_but_for_times(self):
        with tempfile.TemporaryDirectory() as name:
            here = pathlib.Path(name)
            make(here)
            results = []
            for number in range(2):
                out = here / f"{number}.json"
                grade(here, "wrong.toml", "--gradescope", out)
                results.append(re.sub(r'"(seconds|execution_time)": [0-9.]+', "", out.read_text()))
            self.assertEqual(*results)
            self.assertEqual(json.loads(out.read_text())["max_score"], 27)


if __name__ == "__main__":
    if sys.argv[1:] == ["--write"]:
        EXPECTED.write_text(grade_both())
    else:
        unittest.main()
