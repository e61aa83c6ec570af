#!/usr/bin/env python3
"""Compiles a submission of a lab, so that course/grade.py can grade it.

    course/labs/build.py LAB SUBMISSION OUT

SUBMISSION is the folder with a student's texts, OUT the folder that gets the programs, or what else is handed in. The
variable CC names the compiler, as for `make user-c`.
"""
import os
import pathlib
import shutil
import subprocess
import sys

LABS = pathlib.Path(__file__).resolve().parent
TOP = LABS.parent.parent
# What is handed in, by labs: texts in C that are compiled, and files that are taken as they are.
TEXTS = {
    "util": ["sleep.c", "pingpong.c", "primes.c", "find.c", "xargs.c"],
    "shell": ["sh.c"],
    "malloc": ["umalloc.c"],
    "race": ["counter.c"],
    "fs": ["reader.c", "checker.c"],
}
FILES = {
    "race": ["lost.script", "least.script", "stuck.script"],
    "fs": ["reader.py", "checker.py", "image.py"],
}
# Labs whose programs run on the host, and the texts that theirs include.
ON_THE_HOST = {"fs": ["image.h"]}


def compile_all(texts, out):
    """Compiles texts in C, by the names of their programs, and returns what the compiler said."""
    sources = out / "sources"
    sources.mkdir(parents=True, exist_ok=True)
    for name, text in texts.items():
        path = sources / f"{name}.c"
        if not path.exists() or path.read_text() != text:
            path.write_text(text)
    compiler = [f"CC={os.environ['CC']}"] if "CC" in os.environ else []
    words = ["make", "-s", "-k", "-C", TOP / "user-c", f"FROM={sources}", f"OUT={out}", *compiler, "all"]
    return subprocess.run(words, stdout=subprocess.PIPE, stderr=subprocess.STDOUT, text=True).stdout


def compile_for_host(texts, out):
    """Compiles texts in C for the host, by the names of their programs, beside the texts that they include."""
    out.mkdir(parents=True, exist_ok=True)
    said = ""
    for name, text in texts.items():
        (out / name).write_text(text)
    for name in texts:
        if name.endswith(".c"):
            words = ["cc", "-O2", "-Wall", "-o", out / name.removesuffix(".c"), out / name]
            said += subprocess.run(words, stdout=subprocess.PIPE, stderr=subprocess.STDOUT, text=True).stdout
    return said


def with_driver(lab, text, name):
    """The program's name and text of what a student wrote: of lab malloc the driver with it in its middle."""
    if lab != "malloc":
        return name, text
    driver = (LABS / "malloc/driver/heap.c").read_text()
    return name.replace("umalloc", "heap", 1), driver.replace('#include "umalloc.c"\n', text)


def texts_of(submission, names):
    """The texts that a submission has, by their names."""
    paths = [submission / name for name in names]
    return {path.name: path.read_text(errors="replace") for path in paths if path.is_file() and not path.is_symlink()}


def build(lab, submission, out):
    """Compiles and copies what a submission has."""
    out.mkdir(parents=True, exist_ok=True)
    found = texts_of(submission, TEXTS[lab] + ON_THE_HOST.get(lab, []))
    if lab in ON_THE_HOST:
        said = compile_for_host(found, out)
    else:
        said = compile_all(dict(with_driver(lab, text, name.removesuffix(".c")) for name, text in found.items()), out)
    for name in FILES.get(lab, []):
        if (submission / name).is_file() and not (submission / name).is_symlink():
            shutil.copy(submission / name, out / name)
    return said


def main():
    if len(sys.argv) != 4 or sys.argv[1] not in TEXTS:
        sys.exit(__doc__)
    said = build(sys.argv[1], pathlib.Path(sys.argv[2]), pathlib.Path(sys.argv[3]).resolve())
    print(said, end="")


if __name__ == "__main__":
    main()
