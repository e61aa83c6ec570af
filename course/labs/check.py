#!/usr/bin/env python3
"""Grades all right and wrong solutions of the labs, and of the first week's exercises.

    course/labs/check.py [--seeds N] [--jobs N] [--whole] [LAB..]

Each right solution has to have all points under N seeds (50), and each wrong one has to fail in the test that its head
names ("Loses: NAME"), under two of them: of a wrong one that test alone is run, or all with --whole. If one is graded
otherwise the status is 1. The variable XV6 names the program, and CC the compiler.

A right solution is the folder `right`, and one in another language `right_c` or the like. A file PROGRAM-REASON.* of
`also` is another right one, graded under five seeds, and one of `wrong` a wrong one, in place of the file PROGRAM.* of
the right one that has such a file. A wrong one with the ending .edit has
what is changed: after lines with # the lines `file: NAME`, `old: TEXT` and `new: TEXT`; lines that follow one another
are one text, which is there once. One with the ending .from names a file of the repository that it is.
"""
import argparse
import concurrent.futures
import json
import os
import pathlib
import re
import shutil
import subprocess
import sys
import tempfile
import time
from dataclasses import dataclass, field

import build

LABS = build.LABS
COURSE, TOP = LABS.parent, LABS.parent.parent
WRONG_SEEDS = ["one", "two"]
OTHER_SEEDS = 5


@dataclass
class Solution:
    """A submission: its files' texts, and for a wrong one the test that it loses."""

    lab: str
    name: str
    files: dict
    loses: str = ""
    folder: pathlib.Path = None
    lost: list = field(default_factory=list)
    points: set = field(default_factory=set)
    said: str = ""
    left: int = 0
    is_other: bool = False


# ---- texts


def edited(files, text):
    """The files after an edit."""
    files, name, old, new = dict(files), "", [], []
    for line in [*text.splitlines(), "old:"]:
        kind, _, value = line.partition(":")
        if kind in ("file", "old") and new:
            replace(files, name, "\n".join(old), "\n".join(new))
            old, new = [], []
        if kind == "file":
            name = value.strip()
        elif kind == "old":
            old.append(value[1:])
        elif kind == "new":
            new.append(value[1:])
        elif line and not line.startswith("#"):
            raise ValueError(f"{line!r}: file:, old: or new: is wanted")
    return files


def replace(files, name, old, new):
    if files[name].count(old) != 1:
        raise ValueError(f"{name} has {old!r} {files[name].count(old)} times")
    files[name] = files[name].replace(old, new)


def loses_of(text):
    found = re.search(r"Loses: (.+?)(?: \*/|\"\"\")?$", text, re.M)
    if not found:
        raise ValueError("its head names no test that it loses")
    return found[1]


def variant(lab, path, rights):
    """What a file of `wrong` or `also` makes of the right solution that has its program."""
    text = path.read_text()
    program = path.stem.split("-")[0]
    changed = re.search(r"^file: *(\S+)", text, re.M) if path.suffix == ".edit" else None
    name = changed[1] if changed else program + path.suffix
    right = next((files for files in rights if name in files), rights[0])
    if path.suffix == ".edit":
        files = edited(right, text)
    else:
        if path.suffix == ".script":
            text = re.sub(r"^#.*\n", "", text, flags=re.M)
        suffix = path.suffix
        if suffix == ".from":
            source = TOP / text.strip()
            suffix, text = source.suffix, source.read_text()
        files = right | {program + suffix: text}
    loses = loses_of(path.read_text()) if path.parent.name == "wrong" else ""
    return Solution(lab, path.stem, files, loses, is_other=path.parent.name == "also")


def solutions(lab, folder):
    """The right solution, others, and the wrong ones."""
    found = []
    for place in sorted(folder.glob("right*")):
        files = {path.name: path.read_text() for path in sorted(place.iterdir()) if path.is_file()}
        found.append(Solution(lab, place.name, files))
    rights = [solution.files for solution in found]
    for path in sorted([*(folder / "also").glob("*"), *(folder / "wrong").glob("*")]):
        try:
            found.append(variant(lab, path, rights))
        except (ValueError, KeyError) as error:
            raise SystemExit(f"{path}: {error}") from None
    return found


# ---- programs


def prepare(lab, all_of_it, out):
    """Compiles each text once, and makes a folder a submission."""
    texts, names = {}, {}
    for solution in [] if lab in build.ON_THE_HOST else all_of_it:
        for name, text in solution.files.items():
            if name.endswith(".c") and (name, text) not in names:
                number = len(names)
                program, whole = build.with_driver(lab, text, name.removesuffix(".c"))
                names[name, text] = (program, f"p{number}")
                texts[f"p{number}"] = whole
    said = build.compile_all(texts, out) if texts else ""
    for solution in all_of_it:
        solution.folder = out / "submissions" / solution.name
        shutil.rmtree(solution.folder, ignore_errors=True)
        solution.folder.mkdir(parents=True)
        if lab in build.ON_THE_HOST:
            said += build.compile_for_host(solution.files, solution.folder)
            continue
        for name, text in solution.files.items():
            place(solution, name, text, names, out)
    return said


def place(solution, name, text, names, out):
    if name.endswith(".c"):
        program, made = names[name, text]
        if (out / made).exists():
            shutil.copy(out / made, solution.folder / program)
        else:
            solution.said = f"{name} can't be compiled"
    elif name.endswith(".s"):
        source = solution.folder / name
        source.write_text(text)
        if subprocess.run([os.environ["XV6"], "asm", source, source.with_suffix("")], check=False).returncode:
            solution.said = f"{name} can't be assembled"
    else:
        (solution.folder / name).write_text(text)


# ---- grades


def grade(rubric, solution, seed, only=""):
    """The results of the tests, by their names."""
    with tempfile.TemporaryDirectory() as scratch:
        out = pathlib.Path(scratch) / "results.json"
        options = ["--seed", seed, "--only", only, "--gradescope", out]
        words = [sys.executable, COURSE / "grade.py", *options, rubric, solution.folder]
        done = subprocess.run(words, capture_output=True, text=True, check=False)
        if not out.exists():
            raise SystemExit(f"{solution.lab} {solution.name}: {done.stderr or done.stdout}")
        return {test["name"]: test for test in json.loads(out.read_text())["tests"]}


def judge(rubric, solution, seed, whole):
    """Whether a grade is as it has to be."""
    results = grade(rubric, solution, seed, "" if whole else solution.loses)
    lost = [name for name, test in results.items() if test["score"] < test["max_score"]]
    solution.points.add(round(sum(test["score"] for test in results.values())))
    solution.lost += [name for name in lost if name not in solution.lost]
    if solution.loses and solution.loses not in results:
        return f"there is no test {solution.loses!r}"
    if solution.loses:
        return None if solution.loses in lost else f"seed {seed}: it loses {lost} and not {solution.loses!r}"
    return None if not lost else f"seed {seed}: it loses {lost}: {results[lost[0]]['output']}"


def jobs(all_labs, seeds):
    for lab, rubric, found in all_labs:
        for solution in found:
            count = min(seeds, OTHER_SEEDS) if solution.is_other else seeds
            for seed in WRONG_SEEDS if solution.loses else [f"seed {number}" for number in range(count)]:
                yield rubric, solution, seed


def show(solution):
    """A line of the table, and what is wrong."""
    points = sorted(solution.points)
    more = f" (and {len(solution.lost) - 1} more)" if len(solution.lost) > 1 else ""
    loses = f"loses {solution.loses}{more}" if solution.loses else f"{points[0]} to {points[-1]} points"
    print(f"{'WRONG' if solution.said else 'ok':5} {solution.lab:8} {solution.name:34} {loses}", flush=True)
    if solution.said:
        print(f"      {solution.said}", flush=True)


def check_all(all_labs, words):
    """Grades all, and returns how many solutions are not graded as they have to be."""
    todo = list(jobs(all_labs, words.seeds))
    for _, solution, _ in todo:
        solution.left += 1
    wrong = 0
    with concurrent.futures.ThreadPoolExecutor(words.jobs) as pool:
        for (_, solution, _), said in zip(todo, pool.map(lambda job: judge(*job, words.whole), todo)):
            solution.said = solution.said or said or ""
            solution.left -= 1
            if solution.left == 0:
                show(solution)
                wrong += bool(solution.said)
    print(f"{len(todo)} gradings", end=", ")
    return wrong


def folders(names):
    known = {folder.name: folder for folder in sorted(LABS.iterdir()) if (folder / "rubric.toml").exists()}
    exercises = sorted((COURSE / "first_week").iterdir())
    known |= {folder.name: folder for folder in exercises if (folder / "rubric.toml").exists()}
    for name in names:
        if name not in known:
            raise SystemExit(f"{name}: there is no such lab; there are {', '.join(known)}")
    return {name: folder for name, folder in known.items() if name in names or not names}


def programs():
    """Compiles what the labs' images have beside the submissions."""
    subprocess.run(["make", "-s", "-C", TOP / "user-c", *compiler(), "all"], check=True)
    folders_of = ["FROM=../course/labs/programs", "OUT=../out/labs/programs"]
    subprocess.run(["make", "-s", "-C", TOP / "user-c", *folders_of, *compiler(), "all"], check=True)
    texts = [(path, TOP / "out/labs/programs") for path in (LABS / "race/programs").glob("*.s")]
    texts += [(path, TOP / "out/user") for path in (TOP / "user").glob("*.s")]
    for path, out in texts:
        out.mkdir(parents=True, exist_ok=True)
        subprocess.run([os.environ["XV6"], "asm", path, out / path.stem], check=True)


def compiler():
    return [f"CC={os.environ['CC']}"] if "CC" in os.environ else []


def main():
    words = argparse.ArgumentParser(description=__doc__, formatter_class=argparse.RawDescriptionHelpFormatter)
    words.add_argument("--seeds", type=int, default=50)
    words.add_argument("--jobs", type=int, default=2)
    words.add_argument("--whole", action="store_true")
    words.add_argument("labs", nargs="*", metavar="LAB")
    words = words.parse_args()
    os.environ["XV6"] = os.path.abspath(os.environ.get("XV6", TOP / "crates/xv6/out/xv6"))
    begin = time.monotonic()
    programs()
    all_labs = []
    for lab, folder in folders(words.labs).items():
        found = solutions(lab, folder)
        print(prepare(lab, found, TOP / "out/labs" / lab), end="")
        all_labs.append((lab, folder / "rubric.toml", found))
    wrong = check_all(all_labs, words)
    count = sum(len(found) for _, _, found in all_labs)
    print(f"{count} solutions, {wrong} not graded as they have to be, {time.monotonic() - begin:.0f} seconds")
    return 1 if wrong else 0


if __name__ == "__main__":
    sys.exit(main())
