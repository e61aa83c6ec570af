#!/usr/bin/env python3
"""Compares the page's judge with course/grade.py on each solution of the exercises, and of each kind of run its end.

It needs node; the variable XV6 names the program. Both judge the same runs: grade.py's, whose end, output, files and
faults are handed to web/judge.js.
"""
import dataclasses
import json
import os
import pathlib
import subprocess
import sys
import tempfile

HERE = pathlib.Path(__file__).resolve().parent
sys.path[:0] = [str(HERE), str(HERE / "labs"), str(HERE.parent / "web")]
import check  # noqa: E402
import grade  # noqa: E402
import make_page  # noqa: E402

SCRIPT = """
const cases = JSON.parse(require("fs").readFileSync(0, "latin1"));
const file = (files) => (path) => (path in files ? files[path] : null);
console.log(JSON.stringify(cases.map((it) => judge.judged(it.test, { ...it, file: file(it.files) }))));
"""
KEYS = {"output": "output", "lines": "lines", "match": "match", "not": "never"}
ENDS = {
    grade.End.DONE: "done",
    grade.End.HALTED: "halted",
    grade.End.UNREACHED: "unreached",
    grade.End.CUT: "cut",
}


def filled(test, values):
    """A test as the page has it, with names filled in."""
    known = {key: getattr(test, name) for key, name in KEYS.items()}
    case = {"left": values.fill_files(test.left)}
    for key, value in known.items():
        if value is not None:
            case[key] = values.fill(value) if isinstance(value, str) else values.fill_all(value)
    return case


def seen(run):
    """What the page's judge is given of a run, and whether grade.py finds something wrong with it."""
    test = filled(run.test, run.values)
    found = {path: run.file(path) for path in test["left"]}
    files = {path: data.decode("latin-1") for path, data in found.items() if data is not None}
    faults = [fault["words"] for fault in run.report.get("faults", [])]
    case = {"test": test, "end": ENDS[run.end], "output": run.output, "files": files, "faults": faults}
    return case, grade.judge(run, looks=True).has_failed


def runs(rubric, folder, scratch):
    """The first run of each test."""
    programs = {name: (folder / name).resolve() for name in rubric.programs if (folder / name).is_file()}
    engine = grade.Engine(os.environ["XV6"], scratch)
    images = grade.Images(engine, rubric.machine, grade.read_manifest(rubric.machine.manifest), programs)
    runner = grade.Runner(engine, images, folder, "judge")
    for test in rubric.tests:
        values, image = runner.prepare(dataclasses.replace(test))
        yield runner.run(test, test.machine.schedules[0], values, image, looks=True)


def main():
    if "--help" in sys.argv[1:]:
        print(__doc__.strip())
        return 0
    cases, verdicts, names = [], [], []
    exercises = sorted((HERE / "first_week").glob("*/rubric.toml"))
    for name, folder in check.folders([path.parent.name for path in exercises]).items():
        rubric = grade.read_rubric(str(folder / "rubric.toml"))
        found = check.solutions(name, folder)
        check.prepare(name, found, check.TOP / "out/labs" / name)
        for solution in found:
            with tempfile.TemporaryDirectory() as scratch:
                for run in runs(rubric, solution.folder, pathlib.Path(scratch)):
                    case, failed = seen(run)
                    cases.append(case)
                    verdicts.append(failed)
                    names.append(f"{name}, {solution.name}, {run.test.name}")
    words = ["node", "-e", make_page.joined("judge", set()) + SCRIPT]
    said = json.loads(subprocess.run(words, input=json.dumps(cases), capture_output=True, text=True, check=True).stdout)
    wrong = [name for name, failed, sentences in zip(names, verdicts, said) if failed != bool(sentences)]
    for name in wrong:
        print(f"not judged alike: {name}")
    print(f"{len(cases)} runs, {sum(verdicts)} of them wrong: {len(wrong)} not judged alike")
    return 1 if wrong else 0


if __name__ == "__main__":
    sys.exit(main())
