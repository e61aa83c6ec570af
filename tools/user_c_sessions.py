#!/usr/bin/env python3
"""user_c_sessions.py PROGRAM FOLDER: plays the sessions of crates/userland with the programs in assembly (out/user)
and with those in C, which the folder has. The consoles have to show the same, except for what is listed here: a session is
left out where the programs differ in what they are for, and ls in C shows more of a file than its name."""
import pathlib
import re
import shutil
import subprocess
import sys
import tempfile

TOP = pathlib.Path(__file__).resolve().parent.parent

# How a session's title begins that is played with one of them alone, and why.
LEFT_OUT = {
    "The same pipe on a disk of which": "it isn't shown, but played at a disk that fails",
    "Words:": "sh of assembly takes 10 words of 100 bytes, sh in C 31 of 255",
    "Too few frames": "a program in C has other frames",
    "A directory in use is removed": "ls in C lists ., which is not found there",
    "A disk that becomes full": "a program in C has other blocks",
    "forktest: 229": "a program in C has other frames",
    "forktest with few": "a program in C has other frames",
    "init without a shell": "init in C says that there is none",
    "selftest:": "it is one program alone",
    "The same of sleeps": "as before",
}

# A step of a program in assembly is at most that many of one in C.
STEPS = 30


def sessions():
    """Each with its title, the image it boots, its frames and its script."""
    for paragraph in (TOP / "crates/userland/stdin").read_text().strip().split("\n\n"):
        title, boot, *script = paragraph.split("\n")
        yield title.removeprefix("# "), boot.split(), script


def longer(line):
    """A line of a script for programs in C."""
    word, _, rest = line.partition(" ")
    return f"step {STEPS * int(rest)}" if word == "step" else line


def names_alone(shown):
    """What is shown, without what ls in C shows beside a name."""
    return re.sub(rb"^(\S+) +[123] \d+ \d+$", rb"\1", shown, flags=re.MULTILINE)


class Kind:
    """The programs of one kind, and what the session before left."""

    def __init__(self, program, folder, files):
        self.program, self.folder = program, folder
        for file in files:
            shutil.copy(file, folder)
        for image, manifest in ("xv6.img", "manifest"), ("small.img", "small"):
            shutil.copy(TOP / "user" / manifest, folder)
            self.call("mkfs", manifest, image)
        shutil.copy(folder / "xv6.img", folder / "migrated.img")

    def call(self, *words):
        done = subprocess.run([self.program, *words], cwd=self.folder, capture_output=True)
        if words[0] == "mkfs" and done.returncode:
            sys.exit(f"mkfs: {done.stderr.decode()}")
        return done.stdout

    def play(self, image, frames, script):
        (self.folder / "script").write_text("\n".join(script) + "\n")
        shown = self.call("run", "--frames", frames, "--save", "next.img", image, "script")
        if (self.folder / "next.img").exists():
            (self.folder / "next.img").rename(self.folder / "left.img")
        if not shown:
            sys.exit(f"nothing is shown: {image}")
        return names_alone(shown)


def main(program, folder):
    program = str(pathlib.Path(program).resolve())
    with tempfile.TemporaryDirectory() as one, tempfile.TemporaryDirectory() as other:
        assembly = [file for file in (TOP / "out/user").iterdir() if file.is_file()]
        compiled = [file for file in pathlib.Path(folder).iterdir() if file.is_file()]
        in_assembly = Kind(program, pathlib.Path(one), assembly)
        in_c = Kind(program, pathlib.Path(other), assembly + compiled)
        same, differ, left_out = 0, 0, 0
        for title, (how, image, frames), script in sessions():
            if any(title.startswith(begin) for begin in LEFT_OUT):
                left_out += 1
                continue
            shown = in_assembly.play(image, frames, script), in_c.play(image, frames, [longer(line) for line in script])
            if shown[0] == shown[1]:
                same += 1
                continue
            differ += 1
            print(f"# {title}\n-- in assembly:\n{shown[0].decode()}\n-- in C:\n{shown[1].decode()}")
        print(f"{same} sessions show the same, {differ} differ, {left_out} are left out")
        return differ != 0


if __name__ == "__main__":
    sys.exit(main(*sys.argv[1:]) if len(sys.argv) == 3 else __doc__)
