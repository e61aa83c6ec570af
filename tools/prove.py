#!/usr/bin/env python3
"""Proves crates, lowest first, and prints a line for each as it ends.

    tools/prove.py                    every crate, several side by side
    tools/prove.py --below xv6        what a crate is built on, several side by side, each as a library
    tools/prove.py --changed          what differs from the last commit of main, and all crates above that, with their tests
    tools/prove.py --changed HEAD~3   what differs from that commit

Without --changed as many checks run side by side as there are processors, and 3 GB of free memory for each (--jobs N: N of
them); with it they run one after the other, each with that many jobs. A crate waits for those below it. What was proved
already and has not changed costs a look. With --below the checks that run side by side have copies of the crates, below .git/lanes
while they last.
The status is 0 where all is proved; else what the check of a crate said is printed. This is for work: `rt ci` alone is the
gate, which proves from nothing and tries the edits.
"""
import argparse
import os
import re
import shutil
import subprocess
import sys
import time
from concurrent.futures import FIRST_COMPLETED, ThreadPoolExecutor, wait
from pathlib import Path
from queue import SimpleQueue

ROOT = Path(__file__).resolve().parent.parent
CRATES = ROOT / "crates"


def read_lines():
    """The lines of crates.txt, by the crates that they are of."""
    lines = (line.split("#")[0].strip() for line in (ROOT / "crates.txt").read_text().splitlines())
    return {line.split(":")[0].split()[0]: line for line in lines if line}


def read_crates():
    """The crates of crates.txt, each with those of the repository that it is built on."""
    lines = read_lines()
    return {name: [it for it in line.split(":")[1].split() if it in lines] for name, line in lines.items()}


def with_all_above(names, crates):
    """These crates and those that are built on them, lowest first: crates.txt may have any order."""
    found, left = [], dict(crates)
    while left:
        name = next(it for it, below in left.items() if not any(lower in left for lower in below))
        if name in names or any(it in found for it in crates[name]):
            found.append(name)
        del left[name]
    return found


def changed_since(commit, crates):
    """The crates with a file that differs from a commit or that git does not know yet."""
    asked = (["diff", "--name-only", commit, "--", "crates"], ["ls-files", "--others", "--exclude-standard", "--", "crates"])
    told = [subprocess.run(["git", *it], cwd=ROOT, check=True, capture_output=True, text=True).stdout for it in asked]
    return {Path(it).parts[1] for it in "".join(told).splitlines()} & set(crates)


def has_tests(name):
    return any("#[test]" in it.read_text() for it in (CRATES / name / "src").rglob("*.rt"))


def free_jobs():
    """A check for each processor, if there are 3 GB of available memory for each."""
    lines = Path("/proc/meminfo").read_text().splitlines()
    memory = next(int(it.split()[1]) << 10 for it in lines if it.startswith("MemAvailable:"))
    return max(1, min(len(os.sched_getaffinity(0)), memory // (3 << 30)))


def tell(name, said, started, status=0):
    """Prints the line of a crate, and what its check said where it isn't proved. Nothing is said of one that hasn't changed."""
    verdicts = [it for it in said if it.startswith("logic=")]
    if status == 0 and all(it.startswith("logic=proved") for it in verdicts) and not any(re.search(r"(^|\s)error[:\[]", it) for it in said):
        word = "is proved" if verdicts else "was proved before"
        print(f"{time.monotonic() - started:6.0f} s  {name} {word}", flush=True)
        return
    print(f"{time.monotonic() - started:6.0f} s  {name} IS NOT PROVED", flush=True)
    print("".join(f"    {it}" for it in said[-40:]), flush=True)


def groups(lines):
    """Of what rt all check prints, each crate's name and what its check said: up to where it says that it is proved, or all."""
    name, said = None, []
    for line in lines:
        if line.startswith("== "):
            if name:
                yield name, said
            name, said = line[3:].strip(), []
        said.append(line)
        if name and line.startswith("logic=proved"):
            yield name, said
            name = None


def prove_all(jobs):
    """Every crate."""
    started = time.monotonic()
    words = ["rt", "all", "check", "--jobs", str(jobs)]
    with subprocess.Popen(words, cwd=CRATES, stdout=subprocess.PIPE, stderr=subprocess.STDOUT, text=True) as check:
        for name, said in groups(check.stdout):
            if name != "summary":
                tell(name, said, started)
    return 1 if check.returncode else 0


def all_below(name, crates):
    """The crates that a crate is built on."""
    found, left = set(), list(crates[name])
    while left:
        it = left.pop()
        if it not in found:
            found.add(it)
            left += crates[it]
    return found


def lines_of(name):
    """How many lines a crate's code, specs and proofs have, which says about how long its check takes."""
    files = [it for folder in ("src", "specs", "proofs") for it in (CRATES / name / folder).rglob("*") if it.is_file()]
    return sum(it.read_bytes().count(b"\n") for it in files)


def chains(names, crates):
    """How many lines the longest chain of these crates has that begins with each and goes on to what is built on it."""
    found = {}
    for name in reversed(with_all_above(names, crates)):
        if name in names:
            found[name] = lines_of(name) + max((found[it] for it in found if name in crates[it]), default=0)
    return found


def lay_lane(root, names):
    """A folder with copies of these crates, in which one rt works beside those in other folders: rt locks the folder of a crate and of all
    below it, and nearly all are built on one, so two in the same folder would wait for each other."""
    for name in names:
        shutil.copytree(CRATES / name, root / "crates" / name, ignore=shutil.ignore_patterns("out", "must-fail", "edits"))
    lines = read_lines()
    (root / "crates.txt").write_text("".join(f"{lines[name]}\n" for name in names))
    return root / "crates"


def git_folder(name):
    """A folder of this name among git's own, where rt looks for no crates; None where this is no checkout of git."""
    asked = subprocess.run(["git", "rev-parse", "--git-path", name], cwd=ROOT, capture_output=True, text=True)
    return None if asked.returncode else ROOT / asked.stdout.strip()


def link(source, to):
    """A second name of a file; a copy where it can't have one."""
    try:
        os.link(source, to)
    except OSError:
        shutil.copy2(source, to)


def link_library(name, source, to):
    """Has the library of a crate that is built in one folder of crates in another one, too, in place of an older one."""
    library, place = source / name / "out/rlib", to / name / "out/rlib"
    if not (library / "stamp").is_file() or (place / "stamp").is_file() and (place / "stamp").samefile(library / "stamp"):
        return
    shutil.rmtree(place, ignore_errors=True)
    shutil.copytree(library, place, copy_function=link)


def move_kept(name, source, to):
    """Moves what a check kept for the next one."""
    kept, place = source / name / "out/incremental", to / name / "out/incremental"
    if kept.is_dir():
        shutil.rmtree(place, ignore_errors=True)
        place.parent.mkdir(exist_ok=True)
        shutil.move(kept, place)


def build_library(name, below, lane, jobs):
    """Proves a crate as a library in a lane, which takes over what is built already, and gives back what it builds."""
    if lane != CRATES:
        for it in (*below, name):
            link_library(it, CRATES, lane)
    words = ["rt", "lib", "--jobs", str(jobs)]
    built = subprocess.run(words, cwd=lane / name, stdout=subprocess.PIPE, stderr=subprocess.STDOUT, text=True)
    if lane != CRATES:
        link_library(name, lane, CRATES)
        move_kept(name, lane, CRATES)
    return built


def prove_below(name, jobs):
    """What a crate is built on, in as many lanes as checks may run side by side."""
    crates = read_crates()
    names, root = all_below(name, crates), git_folder("lanes")
    if jobs == 1 or root is None:
        return prove_in([CRATES], names, crates)
    shutil.rmtree(root, ignore_errors=True)
    try:
        return prove_in([lay_lane(root / str(it), names) for it in range(jobs)], names, crates)
    finally:
        shutil.rmtree(root, ignore_errors=True)


def prove_in(lanes, names, crates):
    """These crates in these lanes, each once all below it are libraries, the longest chains first, up to the first that isn't proved.
    What begins while there are more lanes than crates to begin with has that many jobs; the one that all wait for has two at least."""
    started, chain = time.monotonic(), chains(names, crates)
    left, done, at_work, free = set(names), set(), {}, SimpleQueue()
    for lane in lanes:
        free.put(lane)

    def build(name, jobs):
        lane = free.get()
        try:
            return build_library(name, all_below(name, crates), lane, jobs)
        finally:
            free.put(lane)

    with ThreadPoolExecutor(len(lanes)) as pool:
        while left or at_work:
            ready = sorted((it for it in left if done.issuperset(crates[it])), key=chain.get, reverse=True)
            room = len(lanes) - len(at_work)
            begun = ready[:room]
            longest = max(chain[it] for it in (*left, *at_work.values()))
            at_work |= {pool.submit(build, it, max(room // len(begun), 1 + (chain[it] == longest))): it for it in begun}
            left.difference_update(begun)
            for built in wait(at_work, return_when=FIRST_COMPLETED).done:
                crate, ran = at_work.pop(built), built.result()
                tell(crate, ran.stdout.splitlines(keepends=True), started, ran.returncode)
                if ran.returncode:
                    pool.shutdown(cancel_futures=True)
                    return 1
                done.add(crate)
    return 0


def prove_changed(commit, jobs):
    """What changed and all above it, with their tests, up to the first that isn't proved."""
    started, crates = time.monotonic(), read_crates()
    names = with_all_above(changed_since(commit, crates), crates)
    print(f"changed since {commit}, and above: {' '.join(names) or 'nothing'}", flush=True)
    for name in names:
        words = ["rt", "test" if has_tests(name) else "check", "--jobs", str(jobs)]
        check = subprocess.run(words, cwd=CRATES / name, stdout=subprocess.PIPE, stderr=subprocess.STDOUT, text=True)
        tell(name, check.stdout.splitlines(keepends=True), started, check.returncode)
        if check.returncode:
            return 1
    return 0


def main(words):
    parser = argparse.ArgumentParser(description=__doc__, formatter_class=argparse.RawDescriptionHelpFormatter)
    parser.add_argument("--changed", nargs="?", const="main", metavar="COMMIT", help="what differs from a commit (main), and all above it")
    parser.add_argument("--below", choices=sorted(read_crates()), metavar="CRATE", help="what this crate is built on")
    parser.add_argument("--jobs", type=int, metavar="N", help="how many at a time, at least 1")
    wanted = parser.parse_args(words)
    if wanted.jobs is not None and wanted.jobs < 1:
        parser.error("--jobs takes a number above 0")
    jobs = wanted.jobs or free_jobs()
    if wanted.below:
        return prove_below(wanted.below, jobs)
    return prove_changed(wanted.changed, jobs) if wanted.changed else prove_all(jobs)


if __name__ == "__main__":
    sys.exit(main(sys.argv[1:]))
