#!/usr/bin/env python3
"""Packs exercises for the page: pack.py FOLDER OUT writes one JSON of all exercises below FOLDER.

An exercise's rubric may say only what the page judges: another key is reported with the exercise's name, and nothing
is written.
The JSON has the files of the manifests, each once, and the exercises. An exercise has the keys `name`, `title`,
`points`, `program`, `text`, `start`, `hints`, `machine`, `manifest` and `tests`.
"""
import base64
import json
import pathlib
import re
import sys
import tomllib

import grade

MACHINE = {"manifest", "frames", "steps", "schedules", "size", "inodes"}
CONDITIONS = {"output", "lines", "match", "not", "left"}
TEST = {"name", "points", "type", "files", "hint", "frames", "steps", "schedules"} | CONDITIONS
TOP = {"title", "points", "programs", "machine", "test"}
# What a regular expression of Python means otherwise in a browser, or not at all.
OWN_PATTERN = re.compile(r"\\[AZ]|\(\?[aiLmsuxP(]")


def fault_of(rubric):
    """What the page can't judge, if there is such a thing."""
    tests = rubric.get("test", [])
    for table, known in [(rubric, TOP), (rubric.get("machine", {}), MACHINE), *((test, TEST) for test in tests)]:
        for key in table:
            if key not in known:
                return f"{key}: the page can't judge by that"
    for test in tests:
        for pattern in [*test.get("match", []), *test.get("not", [])]:
            if OWN_PATTERN.search(pattern):
                return f"{pattern}: the page has other regular expressions"
    return None if len(rubric.get("programs", [])) == 1 else "programs: one is wanted"


def content(folder, value):
    """What a file has, a letter for each byte, or whether it is there."""
    if not isinstance(value, dict):
        return value
    data = (folder / value["file"]).read_bytes() if "file" in value else bytes.fromhex(value["hex"])
    return data.decode("latin-1")


def packed_test(folder, test):
    def contents(key):
        return {path: content(folder, value) for path, value in test.get(key, {}).items()}

    return test | {key: contents(key) for key in ("files", "left")}


class Files:
    """The files of all manifests, each once."""

    def __init__(self):
        self.all = []

    def number(self, data):
        letters = base64.b64encode(data).decode()
        if letters not in self.all:
            self.all.append(letters)
        return self.all.index(letters)

    def entry(self, line):
        if line.kind == "file":
            return {"kind": "file", "path": line.path, "file": self.number(pathlib.Path(line.rest).read_bytes())}
        if line.kind == "dir":
            return {"kind": "dir", "path": line.path}
        major, minor = map(int, line.rest.split())
        return {"kind": "dev", "path": line.path, "major": major, "minor": minor}


def machine_of(rubric, table):
    machine = {"frames": rubric.machine.frames, "steps": rubric.machine.steps, "size": rubric.machine.size}
    return machine | {"inodes": rubric.machine.inodes, "schedules": table.get("schedules", [0])}


def packed(folder, files):
    table = tomllib.loads((folder / "rubric.toml").read_text())
    rubric = grade.read_rubric(str(folder / "rubric.toml"))
    fault = fault_of(table)
    if fault:
        raise SystemExit(f"{folder}/rubric.toml: {fault}")
    hints = [line[2:] for line in (folder / "hints.md").read_text().splitlines() if line.startswith("- ")]
    return {
        "name": folder.name,
        "title": rubric.title,
        "points": rubric.points,
        "program": rubric.programs[0],
        "text": (folder / "text.md").read_text(),
        "start": (folder / "start.s").read_text(),
        "hints": hints,
        "machine": machine_of(rubric, table["machine"]),
        "manifest": [files.entry(line) for line in grade.read_manifest(rubric.machine.manifest)],
        "tests": [packed_test(folder, test) for test in table["test"]],
    }


def main():
    if len(sys.argv) != 3:
        sys.exit(__doc__)
    files = Files()
    folders = sorted(path.parent for path in pathlib.Path(sys.argv[1]).glob("*/rubric.toml"))
    try:
        exercises = [packed(folder, files) for folder in folders]
    except grade.RubricFault as fault:
        sys.exit(str(fault))
    text = json.dumps({"files": files.all, "exercises": exercises}, ensure_ascii=False) + "\n"
    pathlib.Path(sys.argv[2]).write_text(text)


if __name__ == "__main__":
    main()
