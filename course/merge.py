#!/usr/bin/env python3
"""Merges the results of a class, RESULTS/*.json as `grade.py --gradescope` writes them.

RESULTS/grades.csv has a line a submission, RESULTS/class.xml, in JUnit's form, a suite a submission.

Example: course/merge.py results

Statuses: 0 all results are merged, 2 the command line, 3 one of them cannot be read."""
from __future__ import annotations

import argparse
import csv
import html
import io
import json
import pathlib
import sys
from typing import Any, Optional, Sequence

from grade import Table, quoted, write_whole


def read_results(folder: pathlib.Path) -> dict[str, Table]:
    """The results by the submissions' names, sorted."""
    return {path.stem: json.loads(path.read_text(encoding="utf-8")) for path in sorted(folder.glob("*.json"))}


def table_of(results: dict[str, Table]) -> str:
    """A line a submission: its points, and those of each test."""
    names = list(dict.fromkeys(test["name"] for result in results.values() for test in result["tests"]))
    out = io.StringIO()
    writer = csv.writer(out, lineterminator="\n")
    writer.writerow(["submission", "score", "max_score", *names])
    for submission, result in results.items():
        points = {test["name"]: test["score"] for test in result["tests"]}
        writer.writerow([submission, result["score"], result["max_score"], *(points.get(name, "") for name in names)])
    return out.getvalue()


def case_of(test: Table) -> str:
    """A test in JUnit's form."""
    part = test["tags"][0] if test["tags"] else "lab"
    seconds = test["extra_data"]["seconds"]
    head = f'<testcase classname={quoted(part)} name={quoted(test["name"])} time="{seconds:.3f}"'
    if test["status"] == "passed":
        return f"{head}/>"
    kind = "error" if test["extra_data"]["outcome"] == "error" else "failure"
    return f"{head}><{kind}>{html.escape(test['output'])}</{kind}></testcase>"


def suite_of(submission: str, result: Table) -> str:
    """A submission in JUnit's form."""
    outcomes = [test["extra_data"]["outcome"] for test in result["tests"]]
    head = f'<testsuite name={quoted(submission)} tests="{len(outcomes)}"'
    head += f' failures="{outcomes.count("failed")}" errors="{outcomes.count("error")}">'
    return "\n".join([head, *map(case_of, result["tests"]), "</testsuite>"])


def junit_of(results: dict[str, Table]) -> str:
    suites = "\n".join(suite_of(submission, result) for submission, result in results.items())
    return f'<?xml version="1.0" encoding="utf-8"?>\n<testsuites>\n{suites}\n</testsuites>\n'


def main(arguments: Optional[Sequence[str]] = None) -> int:
    words = argparse.ArgumentParser(description=__doc__, formatter_class=argparse.RawDescriptionHelpFormatter)
    words.add_argument("results", metavar="RESULTS", type=pathlib.Path, help="the folder of the results")
    folder: pathlib.Path = words.parse_args(arguments).results
    try:
        results = read_results(folder)
    except (OSError, ValueError) as error:
        print(f"{folder}: {error}", file=sys.stderr)
        return 3
    write_whole(str(folder / "grades.csv"), table_of(results))
    write_whole(str(folder / "class.xml"), junit_of(results))
    points: Any = sum(result["score"] for result in results.values())
    print(
        f"{len(results)} submissions, {points / max(len(results), 1):.1f} points on average: "
        f"{folder}/grades.csv, class.xml"
    )
    return 0


if __name__ == "__main__":
    sys.exit(main())
