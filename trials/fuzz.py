#!/usr/bin/env python3
"""Hands `xv6` random files, and reports what it does that it should not.

    trials/fuzz.py [--seconds N] [--seed N] [--only WORDS] [--keep FOLDER] PROGRAM     as `make fuzz` calls it

Scripts, manifests, assembly texts, images and program files are made from good ones (those of `user/`, and what the program
itself makes of them) by random changes, and each is handed to a random command that takes it. Reported are: a status other than 0, 1
and 2, a signal, a run that takes longer than its limit, a line that no page of docs/ has, and lines that don't fit their status.
The files of such a run are kept, with its words. The same seed makes the same runs, as far as the time lasts.

The status is 1 where something was reported.
"""

import argparse
import dataclasses
import os
import pathlib
import random
import re
import resource
import shutil
import subprocess
import sys
import tempfile
import time

USER = pathlib.Path(__file__).resolve().parent.parent / "user"
# How long a run may take, in seconds, and how much memory it may ask for, in bytes.
LIMIT = 30
MEMORY = 2 << 30

IMAGE = "Length Magic Numbers NodeType Address SharedBlock Bitmap Size Entry Links Unreached Device NoMemory".split()
MAKE = "Name Twice Blocks Inodes Parent Numbers NoMemory".split()
BOOT = {2: "FrameCount", 3: "Device", 4: "NoMemory", 5: "NoInit"}
TREE = {1: "NotFound", 2: "NotDir"}
ELF = "Magic Sizes Align Overlap Short".split()
ASM = "Syntax Mnemonic Operand Range Label Twice Align NoMemory".split()
NUMBERS = (0, 1, 2, 3, 11, 12, 13, 15, 16, 31, 32, 63, 64, 127, 255, 256, 1023, 1024, 4095, 4096, 11264, 11265, 16384, 32767, 32768,
           65535, 65536, 131072, 131073, 270336, 273408, 273409, 67382272, 67382273, 0x7fffffff, 0x80000000, 0xffffffff)


def numbered(names):
    """The lines of faults with these names, which have the numbers from 1 on."""
    pairs = names.items() if isinstance(names, dict) else enumerate(names, 1)
    return [f"fault {number} {name}" for number, name in pairs]


ANY = [r"cannot read (?s:.*)", "no memory"]
OUT = [r"cannot write .*"]
RAN = ["running", r"halt 1 InitEnded -?\d+", "halt 2 Device", "halt 3 Console"]
SCRIPT = [r"script line \d+"]


@dataclasses.dataclass
class Command:
    """The kinds of the files that a command takes, what it writes to standard output, and what to standard error."""

    takes: tuple
    shows: str
    tells: list
    words: tuple = ()
    makes: str = ""


COMMANDS = {
    "asm": Command(("text",), "", ANY + OUT + [f"line \\d+: {n} {name}" for n, name in enumerate(ASM, 1)], makes="made"),
    "mkfs": Command(("manifest",), "", ANY + OUT + numbered(MAKE) + [r"manifest line \d+"], ("--size", "--inodes"), "made"),
    "check": Command(("image",), r"ok \d+ inodes \d+ blocks\n", ANY + numbered(IMAGE)),
    "ls": Command(("image",), r"(?s:.{14} \S+ [ \d]{5} [ \d]{6,8}\n)*", ANY + numbered(IMAGE) + numbered(TREE)),
    "migrate": Command(("old",), r"ok \d+ inodes \d+ blocks\n", ANY + OUT + numbered(IMAGE) + ["fault 2 Blocks", "fault 3 NoMemory"], makes="made"),
    "dump": Command(("program",), r"([0-9a-f]{8}: [0-9a-f]{8} .+\n)*", ANY + numbered(ELF)),
    "flat": Command(("program", "script"), r"(?s:.*)", ANY + SCRIPT + RAN + numbered(BOOT), ("--frames", "--tlb")),
    "run": Command(("image", "script"), r"(?s:.*)", ANY + SCRIPT + OUT + RAN + numbered(BOOT) + numbered(IMAGE),
                   ("--frames", "--tlb", "--save")),
}


class Files:
    """Good files of each kind, and changes of them."""

    def __init__(self, program, folder, seed):
        self.program, self.folder, self.chance = program, folder, random.Random(seed)
        self.good = {kind: [] for kind in ("text", "manifest", "script", "program", "image", "old")}
        self.make()

    def make(self):
        """The programs of `user/`, images with them, and scripts."""
        texts = sorted(USER.glob("*.s"))
        for path in texts:
            self.good["text"].append(path.read_bytes())
            self.do("asm", str(path), path.stem)
            self.good["program"].append((self.folder / path.stem).read_bytes())
        manifest = (USER / "manifest").read_bytes()
        small = b"dir /d\nfile /init echo\nfile /d/f cat\ndev /console 1 0\ndir /d/e\nfile /d/e/g ls\n"
        for number, (text, size, inodes) in enumerate(((manifest, 2000, 200), (small, 64, 16), (b"", 32, 16))):
            self.good["manifest"].append(text)
            (self.folder / "manifest").write_bytes(text)
            self.do("mkfs", "--size", str(size), "--inodes", str(inodes), "manifest", f"image{number}")
            image = (self.folder / f"image{number}").read_bytes()
            self.good["image"].append(image)
            if size < 2000:
                # where no file has more than 11 blocks the small format differs in the magic number alone
                self.good["old"].append(image[:1024] + b"\x40" + image[1025:])
        demo = (USER / "demo").read_bytes()
        self.good["script"] += [demo, b"step 100\ntick 3\nstep 100\nkeys 0061620d7f15\ntype mkdir a\nstep 3000\n",
                                b"step 3000\ntype forktest\nstep 50000\n", b""]

    def do(self, *words):
        subprocess.run([self.program, *words], cwd=self.folder, check=True, capture_output=True)

    def place(self, content):
        """A random offset, the first blocks more often than the others."""
        end = len(content) if self.chance.random() < 0.5 else min(len(content), 8192)
        return self.chance.randrange(end + 1)

    def number(self):
        return self.chance.choice(NUMBERS) if self.chance.random() < 0.7 else self.chance.getrandbits(32)

    def changed_bytes(self, content):
        """One change of some bytes."""
        at = self.place(content)
        length = self.chance.choice((1, 1, 2, 4, 16, 64, 1024))
        match self.chance.randrange(7):
            case 0:
                content[at:at + 1] = bytes([content[at] ^ 1 << self.chance.randrange(8)]) if at < len(content) else b""
            case 1:
                content[at:at + 1] = bytes([self.chance.randrange(256)])
            case 2:
                at &= ~3
                content[at:at + 4] = self.number().to_bytes(4, "little")
            case 3:
                at &= ~1
                content[at:at + 2] = (self.number() & 0xffff).to_bytes(2, "little")
            case 4:
                del content[at:at + length]
            case 5:
                other = self.place(content)
                content[at:at + length] = content[other:other + length]
            case 6:
                content[at:at] = self.chance.randbytes(length)

    def changed_text(self, content):
        """One change of the lines of a text."""
        lines = content.split(b"\n")
        at, other = self.chance.randrange(len(lines)), self.chance.randrange(len(lines))
        match self.chance.randrange(6):
            case 0:
                lines[at] = lines[other]
            case 1:
                lines.insert(at, lines[other])
            case 2:
                del lines[at]
            case 3:
                lines[at], lines[other] = lines[other], lines[at]
            case 4:
                number = str(self.number()).encode()
                lines[at] = re.sub(rb"-?\b(0x[0-9a-f]+|\d+)\b", number, lines[at], count=1)
            case 5:
                words = re.split(rb"([ ,])", lines[at])
                word = self.chance.choice(lines[other].split(b" "))
                words[self.chance.randrange(len(words))] = word
                lines[at] = b"".join(words)
        content[:] = b"\n".join(lines)

    def file(self, kind):
        """A changed file of this kind."""
        content = bytearray(self.chance.choice(self.good[kind]))
        is_text = kind in ("text", "manifest", "script")
        for _ in range(self.chance.choice((0, 1, 1, 1, 2, 4, 16))):
            if is_text and self.chance.random() < 0.7:
                self.changed_text(content)
            else:
                self.changed_bytes(content)
        if self.chance.random() < 0.05:
            del content[self.place(content):]
        if kind == "script":
            # a run must end in time
            content = re.sub(rb"\d{6,}", lambda number: number[0][:5], bytes(content))
        if kind == "manifest":
            content = re.sub(rb" /[^\n]* /[^\n]*", b" /f cat", bytes(content))
        return bytes(content)


def words_of(files, name, command):
    """The words of a random call of a command, whose files are written."""
    chance = files.chance
    words = [name]
    for option in command.words:
        if chance.random() < 0.5:
            continue
        words.append(option)
        if option == "--save":
            words.append("saved")
        elif option != "--tlb":
            words.append(str(chance.choice((16, 32, 64, 200, 256, 519, 2000)) if chance.random() < 0.8 else files.number()))
    for kind in command.takes:
        (files.folder / f"a_{kind}").write_bytes(files.file(kind))
        words.append(f"a_{kind}")
    if command.makes:
        words.append(command.makes)
    if name == "ls":
        words.append(chance.choice(("", "/", "/d", "d/e", "/init", "//", "x", "/d/../d", "a" * 300)))
    return words


def limited():
    resource.setrlimit(resource.RLIMIT_AS, (MEMORY, MEMORY))


def wrong(command, ran):
    """What is wrong with what a run returned, if anything is."""
    shown, told = ran.stdout.decode("latin-1"), ran.stderr.decode("utf-8", errors="replace")
    if ran.returncode not in (0, 1):
        return f"status {ran.returncode}"
    if not re.fullmatch(command.shows, shown) and (shown or ran.returncode == 0):
        return "standard output"
    if ran.returncode == 0 and told and not re.fullmatch(r"running\n|halt 1 InitEnded -?\d+\n", told):
        return f"status 0, and printed {told[:100]!r}"
    if ran.returncode == 1 and not re.fullmatch("((" + "|".join(command.tells) + ")\n){1,2}", told):
        return f"status 1, and printed {told[:100]!r}"
    return None


def tried(program, files, name):
    """Calls a command: its words, what it returned, and what is wrong with that."""
    command = COMMANDS[name]
    words = words_of(files, name, command)
    try:
        ran = subprocess.run([program, *words], cwd=files.folder, capture_output=True, timeout=LIMIT, preexec_fn=limited)
    except subprocess.TimeoutExpired:
        return words, None, f"more than {LIMIT} seconds"
    return words, ran.returncode, wrong(command, ran)


def kept(folder, files, words, what, number):
    """Keeps the files of a run."""
    place = folder / str(number)
    place.mkdir(parents=True, exist_ok=True)
    for word in words:
        if (files.folder / word).is_file() and word.startswith("a_"):
            shutil.copy(files.folder / word, place / word)
    (place / "words").write_text(" ".join(repr(word) for word in words) + f"\n{what}\n")
    return place


def main():
    parser = argparse.ArgumentParser(description=__doc__, formatter_class=argparse.RawDescriptionHelpFormatter)
    parser.add_argument("program", type=os.path.abspath)
    parser.add_argument("--seconds", type=float, default=60)
    parser.add_argument("--seed", type=int, default=1)
    parser.add_argument("--only", choices=COMMANDS, nargs="*")
    parser.add_argument("--keep", type=pathlib.Path, default=pathlib.Path("out/fuzz"))
    arguments = parser.parse_args()
    names = arguments.only or list(COMMANDS)
    statuses, found = {}, 0
    end = time.monotonic() + arguments.seconds
    with tempfile.TemporaryDirectory() as folder:
        files = Files(arguments.program, pathlib.Path(folder), arguments.seed)
        number = 0
        while time.monotonic() < end:
            number += 1
            name = files.chance.choice(names)
            words, status, what = tried(arguments.program, files, name)
            statuses[name, status] = statuses.get((name, status), 0) + 1
            if what:
                found += 1
                print(f"run {number}: {' '.join(words)}: {what}; its files are in {kept(arguments.keep, files, words, what, number)}")
    counts = ", ".join(f"{name} {status}: {count}" for (name, status), count in sorted(statuses.items(), key=str))
    print(f"seed {arguments.seed}, {number} runs, {found} wrong; by command and status: {counts}")
    sys.exit(1 if found else 0)


if __name__ == "__main__":
    main()
