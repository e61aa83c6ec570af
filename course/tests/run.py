#!/usr/bin/env python3
"""Runs the tests of the grader: run.py [--pure | --user].

With --pure those that need no program: rubrics, and the forms of results. Else the variable XV6 names the program, and
programs of user/ and of this folder, which it assembles, are graded: each condition of a rubric, which are all tests of
--user, and hostile ones."""

import pathlib
import sys
import unittest

HERE = pathlib.Path(__file__).resolve().parent
PURE, USER, HOSTILE = ["test_rubrics", "test_forms"], ["test_conditions"], ["test_hostile"]
TESTS = {(): PURE + USER + HOSTILE, ("--pure",): PURE, ("--user",): USER}


def main() -> int:
    names = TESTS.get(tuple(sys.argv[1:]))
    if names is None:
        print(__doc__, file=sys.stderr)
        return 2
    sys.path.insert(0, str(HERE))
    tests = unittest.defaultTestLoader.loadTestsFromNames(names)
    return 0 if unittest.TextTestRunner(stream=sys.stdout).run(tests).wasSuccessful() else 1


if __name__ == "__main__":
    sys.exit(main())
