"""Rubrics: each wrong one is refused with its line and reason before anything runs; TOML and JSON say the same.

It needs no program and no compiler: python3 -m unittest discover course/tests -p 'test_rubrics.py'.
"""
import contextlib
import io
import json
import os
import pathlib
import sys
import tempfile
import tomllib
import unittest
import unittest.mock

HERE = pathlib.Path(__file__).resolve().parent
sys.path.insert(0, str(HERE.parent))

import grade  # noqa: E402

WRONG = HERE / "wrong_rubrics"


def line_of(name):
    """The grader's status and what it says of a rubric of this folder, with a program that isn't there."""
    error = io.StringIO()
    with contextlib.redirect_stderr(error), unittest.mock.patch.dict(os.environ, {"XV6": "/nonexistent"}):
        status = grade.main([name, "."])
    return f"{status} {error.getvalue()}"


def lines_of_wrong_rubrics():
    """What the grader says of each wrong rubric, sorted by the files' names."""
    with contextlib.chdir(WRONG):
        return "".join(line_of(name) for name in sorted(os.listdir()) if name.endswith((".toml", ".json")))


class WrongRubrics(unittest.TestCase):
    maxDiff = None

    def test_lines_and_reasons(self):
        self.assertEqual(lines_of_wrong_rubrics(), (WRONG / "expected").read_text())


class RightRubrics(unittest.TestCase):
    TEXT = """\
title = "Lab"
points = 7
programs = ["pingpong"]

[machine]
schedules = [0, "random 3 100"]

[[test]]
name = "one"
points = 5
type = ["pingpong %1 %{count}"]
draw = { count = [3, 3] }
match = ['^\\d+: received ping$']
left = { "/%1" = "x", "/b" = false }

[[test]]
name = "two"
points = 2
type = ["ls"]
calls = { read = 2 }
most_steps = { full = 10, none = 30 }
"""

    def read(self, name, text):
        with tempfile.TemporaryDirectory() as folder:
            path = pathlib.Path(folder) / name
            path.write_text(text)
            return grade.read_rubric(str(path))

    def test_toml_and_json_say_the_same(self):
        one = self.read("a.toml", self.TEXT)
        other = self.read("a.json", json.dumps(tomllib.loads(self.TEXT), indent=1))
        self.assertEqual(one.tests, other.tests)
        self.assertEqual(one.tests[0].programs, ("pingpong",))

    def test_play(self):
        test = self.read("a.toml", self.TEXT).tests[0]
        values = grade.Values.of(test, "ada")
        self.assertEqual(
            grade.play_of(test, test.machine.schedules[1], values),
            f"until prompt 1000000\nrandom 3 100 tick\ntype pingpong {values.names[0]} 3\nuntil prompt 1000000\n",
        )
        self.assertEqual(values, grade.Values.of(test, "ada"))
        self.assertNotEqual(values, grade.Values.of(test, "bob"))

    def test_points_by_steps(self):
        test = self.read("a.toml", self.TEXT).tests[1]
        self.assertEqual([grade.points_of(test, steps) for steps in (10, 11, 20, 29, 30, 31)], [2, 1, 1, 0, 0, 0])

    CHECKS = """\
def of_calls(run):
    return [call for call in run.trace.calls]

def by_a_helper(run):
    return sorted(name for name in of_calls(run))

def by_files(run):
    return run.file("/out")

def by_lines(run):
    return run.lines and of_lines(run)

def of_lines(run):
    return by_lines(run)
"""

    def test_how_closely_runs_are_looked_at(self):
        wanted = {
            'match = ["."]': (grade.Depth.CONSOLE, False),
            'left = { "/out" = true }': (grade.Depth.CONSOLE, True),
            "status = { say = 0 }": (grade.Depth.REPORT, False),
            "unwaited = false": (grade.Depth.ENDS, False),
            'no_calls = ["fork"]': (grade.Depth.CALLS, False),
            'check = "checks:by_lines"': (grade.Depth.REPORT, False),
            'check = "checks:by_files"': (grade.Depth.REPORT, True),
            'check = "checks:by_a_helper"': (grade.Depth.CALLS, False),
        }
        rubric = f'title = "Lab"\npoints = {len(wanted)}\n' + "".join(
            f'[[test]]\nname = "{number}"\npoints = 1\ntype = ["say"]\n{key}\n' for number, key in enumerate(wanted)
        )
        with tempfile.TemporaryDirectory() as folder:
            (pathlib.Path(folder) / "checks.py").write_text(self.CHECKS)
            path = pathlib.Path(folder) / "a.toml"
            path.write_text(rubric)
            tests = grade.read_rubric(str(path)).tests
        self.assertEqual([(test.depth, test.wants_files) for test in tests], list(wanted.values()))

    def test_keys_in_texts_of_several_lines(self):
        text = 'a = """\nb = 1\n[[c]]\n"""\n[d]\ne = [ # [\n 1,\n]\n"f.g" = {h = 2}\n'
        self.assertEqual(grade.toml_lines(text), {("a",): 1, ("d",): 5, ("d", "e"): 6, ("d", "f.g"): 9})


if __name__ == "__main__":
    if sys.argv[1:] == ["--write"]:
        (WRONG / "expected").write_text(lines_of_wrong_rubrics())
    else:
        unittest.main()
