#!/usr/bin/env python3
"""assembly.py PROGRAM: tries the examples of docs/ASSEMBLY.md, and runs the programs of examples/assembly.
Those of examples/assembly/textbook are run by its init.s, and have to end with status 0.

In the table of words each example is assembled; in that of other assemblers' texts each on the left is refused by `asm` and taken by
`as`, and each on the right that is code alone is assembled. The forms of `as` are taken, and its faults are those that the page shows.
A program's console has to show what the file NAME.out beside it has, after the keys of NAME.keys."""
import glob
import os
import re
import subprocess
import sys
import tempfile

TOP = os.path.join(os.path.dirname(os.path.abspath(__file__)), "..")
# What the examples go to.
LABELS = "\n.pad 8\ndone:\nsum:\ntext:\nvalue: .dword 0\n"
STEPS = "step 200000\n"
# What the forms of `as` use.
FORMS = "nop\n.data\n1: start: x: .word 1\nend:\n.text\n.equ SIZE, 4\nlabel: auipc a0, %pcrel_hi(x)\n"


def is_assembled(program, text, folder, command="asm"):
    source, made = os.path.join(folder, "text.s"), os.path.join(folder, "text")
    open(source, "w").write(text)
    words = [source, made] if command == "asm" else [source, "-o", made]
    return subprocess.run([program, command, *words], capture_output=True).returncode == 0


def rows(page, title, n):
    """The rows of the tables below a heading that have n cells."""
    part = page.split(f"\n## {title}\n")[1].split("\n## ")[0]
    for line in part.splitlines():
        cells = [cell.strip() for cell in line.strip("|").split("|")]
        if line.startswith("|") and len(cells) == n and not cells[0].startswith("---"):
            yield cells


def code(cell):
    """The lines of a cell, where it is code alone."""
    lines = re.findall(r"`([^`]*)`", cell)
    return lines if lines and not re.sub(r"`[^`]*`", "", cell).strip(", ") else []


def examples(program, page, folder):
    """What is wrong with the examples of the page, and how many there are."""
    wrong, count = [], 0
    for _, example, _ in rows(page, "The language of `asm`", 3):
        for line in code(example):
            count += 1
            if not is_assembled(program, line + LABELS, folder):
                wrong.append(f"{line} is refused")
    for there, here in rows(page, "A text for another assembler", 2):
        for line in code(there):
            count += 1
            if is_assembled(program, line + LABELS, folder):
                wrong.append(f"{line} is assembled")
            if not is_assembled(program, line + LABELS.replace(".pad 8", "main: .align 3"), folder, "as"):
                wrong.append(f"as refuses {line}")
        if code(here) and not is_assembled(program, "\n".join(code(here)) + LABELS, folder):
            wrong.append(f"{here} is refused")
    for form, example in rows(page, "Texts for `xv6 as`", 2):
        for line in [] if form.startswith("`") else code(example):
            count += 1
            if not is_assembled(program, FORMS + line + "\n", folder, "as"):
                wrong.append(f"as refuses {line}")
    return wrong, count


def reported(program, page, folder):
    """What is wrong with the report that the page shows."""
    block = next(part for part in page.split("```") if part.strip().startswith("$ xv6 as prog.s"))
    lines = [line for line in block.strip().splitlines()[1:] if line.startswith("prog.s:")]
    pictures = [line for line in block.strip().splitlines()[1:] if not line.startswith("prog.s:") and "^" not in line]
    open(os.path.join(folder, "prog.s"), "w").write("".join(line[4:] + "\n" for line in pictures))
    said = subprocess.run([program, "as", "prog.s"], cwd=folder, capture_output=True, text=True).stderr.splitlines()
    return [] if said == lines else [f"as reports {said}"]


def ran(program, folder, files, keys):
    """What the console shows of an image with these files, after the lines of a file are typed, and how the machine ends."""
    typed = "".join(f"type {line}{STEPS}" for line in open(keys)) if os.path.exists(keys) else ""
    open(os.path.join(folder, "manifest"), "w").write(files)
    open(os.path.join(folder, "script"), "w").write(STEPS + typed)
    made = [program, "mkfs", "--size", "200", "--inodes", "32", "manifest", "img"]
    subprocess.run(made, cwd=folder, check=True, capture_output=True)
    done = subprocess.run([program, "run", "img", "script"], cwd=folder, capture_output=True, text=True)
    return done.stdout, done.stderr.strip()


def first(program, page, folder):
    """What is wrong with the page's first session: its text, at the shell of the user programs."""
    blocks = page.split("\n## The first five minutes\n")[1].split("\n## ")[0].split("```")
    open(os.path.join(folder, "hello.s"), "w").write(blocks[1])
    assembled(program, os.path.join(folder, "hello.s"), folder)
    files = open(os.path.join(TOP, "user/manifest")).read()
    for name in re.findall(r"(\S+)$", files, re.M):
        subprocess.run([program, "asm", os.path.join(TOP, "user", name + ".s"), os.path.join(folder, name)], check=True)
    open(os.path.join(folder, "hello.keys"), "w").write("hello\n")
    shown, _ = ran(program, folder, files + "file /hello hello\n", os.path.join(folder, "hello.keys"))
    wanted = blocks[3][blocks[3].index("init: "):]
    return [] if shown.strip() == wanted.strip() else [f"the first session shows {shown}"]


def assembled(program, text, folder):
    """Assembles a text, and returns the name of its program."""
    name = os.path.basename(text)[:-2]
    subprocess.run([program, "as", text, "-o", os.path.join(folder, name)], check=True)
    return name


def programs(program, folder):
    """The names of the programs that don't show what they should, and how many there are."""
    top = os.path.join(TOP, "examples/assembly")
    for text in sorted(glob.glob(top + "/*.s")):
        if not text.endswith("lib.s"):
            assembled(program, text, folder)
    outs, wrong = sorted(glob.glob(top + "/*.out")), []
    for out in outs:
        name = os.path.basename(out)[:-4]
        shown, _ = ran(program, folder, f"file /init {name}\nfile /child child\n", out[:-4] + ".keys")
        if shown != open(out).read():
            wrong.append(f"{name} shows something else")
    return wrong, len(outs)


def exercises(program, folder):
    """The same for the exercises as textbooks have them."""
    top = os.path.join(TOP, "examples/assembly/textbook")
    init, wrong = assembled(program, top + "/init.s", folder), []
    texts = sorted(glob.glob(top + "/*/*.s"))
    for text in texts:
        name = assembled(program, text, folder)
        shown, end = ran(program, folder, f"file /init {init}\nfile /program {name}\n", text[:-2] + ".keys")
        if shown != open(text[:-2] + ".out").read() or end != "halt 1 InitEnded 0":
            wrong.append(f"{text} shows something else, or ends otherwise: {end}")
    return wrong, len(texts)


def main():
    if "--help" in sys.argv[1:]:
        print(__doc__.strip())
        return 0
    program = os.path.abspath(sys.argv[1])
    page = open(os.path.join(TOP, "docs/ASSEMBLY.md")).read()
    with tempfile.TemporaryDirectory() as folder:
        wrong, count = examples(program, page, folder)
        wrong += reported(program, page, folder) + first(program, page, folder)
        odd, run = programs(program, folder)
        others, more = exercises(program, folder)
    wrong += odd + others
    for line in wrong:
        print(line)
    print(f"{count} examples, {run} programs, {more} exercises, {len(wrong)} wrong")
    return 1 if wrong else 0


if __name__ == "__main__":
    sys.exit(main())
