"""What a row of the benchmark runs: programs on the machine, and the commands of `xv6` on texts and images.

Each job makes its files in a folder of its own, and returns the command to be timed.
"""

import dataclasses
import pathlib
import re
import shutil
import struct
import subprocess
import tempfile
import typing

from measure import Command, run

HERE = pathlib.Path(__file__).resolve().parent

# How a script's run ends: process 1 ended with status 0, or it goes on.
ENDED, RUNNING = "halt 1 InitEnded 0", "running"

# A script that goes on to the program's end.
TO_THE_END = "step 1000000000\n"


@dataclasses.dataclass(frozen=True)
class Place:
    """Where jobs are made: a folder, the program `xv6`, the plain interpreter and its twin."""

    folder: pathlib.Path
    xv6: pathlib.Path
    plain: "pathlib.Path | None" = None
    twin: "pathlib.Path | None" = None

    def new_folder(self):
        return pathlib.Path(tempfile.mkdtemp(dir=self.folder))


def compile_plain(place):
    """The folder with the plain interpreter and its twin, which are compiled there."""
    made = {"plain": HERE / "baseline" / "main.rs", "twin": HERE / "twin.rs"}
    for name, source in made.items():
        rustc = ["rustc", "-O", "-C", "codegen-units=1", "--edition", "2021", "-o", place.folder / name, source]
        subprocess.run(rustc, check=True)
    return dataclasses.replace(place, **{name: place.folder / name for name in made})


class Program:
    """An assembly text of `bench/programs` with a number for each of its names in capitals, or of another folder.
    Where `pages` are given, its segment has that many, filled up with zeros."""

    def __init__(self, name, pages=None, folder=HERE / "programs", **numbers):
        self.text = folder / f"{name}.s"
        self.pages, self.numbers = pages, numbers

    def elf(self, place):
        """The program file that `xv6 asm` makes of the text."""
        text = self.text.read_text()
        for name, number in self.numbers.items():
            text = re.sub(rf"\b{name}\b", str(number), text)
        folder = place.new_folder()
        (folder / "text").write_text(text)
        run(Command([place.xv6, "asm", "text", "elf"], folder))
        elf = bytearray((folder / "elf").read_bytes())
        if self.pages:
            struct.pack_into("<Q", elf, 104, 4096 * self.pages)
        return bytes(elf)

    def flat(self, place):
        """The bytes of the text."""
        return self.elf(place)[4096:]


# How many pages the programs have that write what is zero at the start.
PAGES = {"sort": 21, "memcp": 9, "chase": 201}


class Compiled:
    """A C program of `bench/c`: the bytes that are stored beside its text, and zeros up to its end."""

    def __init__(self, name):
        self.bytes = HERE / "c" / f"{name}.bin"
        self.length = 4096 * PAGES.get(name, 0)

    def flat(self, place):
        """The bytes."""
        return self.bytes.read_bytes().ljust(self.length, b"\0")


# What runs a flat program.
XV6, PLAIN, TWIN = "xv6", "plain", "twin"


@dataclasses.dataclass(frozen=True)
class Flat:
    """A program of bytes and a script on `xv6 flat`, or on a plain interpreter. Where `steps` are given, it takes that many."""

    program: typing.Any
    script: str = TO_THE_END
    frames: int = 256
    stdout: bytes = b""
    end: str = ENDED
    flags: tuple = ()
    on: str = XV6
    steps: "int | None" = None

    def command(self, place):
        folder = place.new_folder()
        (folder / "program").write_bytes(self.program.flat(place))
        (folder / "script").write_text(self.script)
        if self.on == XV6:
            words = [place.xv6, "flat", *self.flags, "--frames", str(self.frames), "program", "script"]
            return Command(words, folder, self.stdout, self.end)
        words = [{PLAIN: place.plain, TWIN: place.twin}[self.on], *self.flags, str(self.frames), "program", "script"]
        end = {ENDED: "exit 0", RUNNING: "running"}[self.end]
        return Command(words, folder, self.stdout, rf"{end} after {self.steps or '[0-9]+'} steps")


# What runs the instructions of a program that only computes, where it is installed: qemu, which translates them, as a process of
# Linux or as a computer of its own, and the host's own code of the same text.
QEMU_USER, QEMU_SYSTEM, NATIVE = "qemu-riscv64", "qemu-system-riscv64", "cc"

# Debian's package qemu-user-static has the first under another name.
STATIC = "qemu-riscv64-static"

COMPUTER = ["-machine", "virt", "-display", "none", "-serial", "none", "-monitor", "none"]


def found(tool):
    """Where a tool is, or none."""
    return shutil.which(tool) or (shutil.which(STATIC) if tool == QEMU_USER else None)


# An exit as a compiler and as `xv6 asm` write it, and one of Linux: the call has another number there.
EXITS = [
    (struct.pack("<2I", number | 2 << 20, 0x73), struct.pack("<2I", number | 93 << 20, 0x73))
    for number in (0x893, 0x88893)
]


def linux_program(content):
    """A program of Linux whose one segment is these bytes, all of which may be written and executed."""
    for exits, as_linux in EXITS:
        content = content.replace(exits, as_linux)
    base, offset, length = 0x100000, 4096, len(content)
    head = struct.pack("<16s2HI3QI6H", b"\x7fELF\2\1\1", 2, 243, 1, base, 64, 0, 0, 64, 56, 1, 0, 0, 0)
    segment = struct.pack("<2I6Q", 1, 7, offset, base, base, length, length, 4096)
    return (head + segment).ljust(offset, b"\0") + content


@dataclasses.dataclass(frozen=True)
class Translated:
    """The bytes of a flat program by qemu. Status 0 says that its result is right."""

    program: typing.Any
    by: str

    def command(self, place):
        folder, content = place.new_folder(), self.program.flat(place)
        file = folder / "program"
        if self.by == QEMU_USER:
            file.write_bytes(linux_program(content))
            file.chmod(0o755)
            return Command([found(self.by), "program"], folder)
        file.write_bytes(Program("boot").flat(place) + content)
        return Command([found(self.by), *COMPUTER, "-bios", "program"], folder)


@dataclasses.dataclass(frozen=True)
class Native:
    """A C program that the host's compiler compiles. Status 0 says that its result is right."""

    text: pathlib.Path
    flags: tuple = ()

    def command(self, place):
        folder = place.new_folder()
        subprocess.run([NATIVE, "-O2", *self.flags, self.text, "-o", folder / "program"], check=True)
        return Command([folder / "program"], folder)


def image_of(files, size=2000, inodes=200):
    """Makes an image of programs by their names, with `xv6 mkfs`; what `xv6 check` says of it isn't known."""

    def make(place):
        folder = place.new_folder()
        for name, program in files.items():
            (folder / name).write_bytes(program.elf(place))
        (folder / "manifest").write_text("".join(f"file /{name} {name}\n" for name in files))
        numbers = ["--size", str(size), "--inodes", str(inodes)]
        run(Command([place.xv6, "mkfs", *numbers, "manifest", "image"], folder))
        return (folder / "image").read_bytes(), None

    return make


@dataclasses.dataclass(frozen=True)
class Booted:
    """An image and a script on `xv6 run`, or another of its commands. A function makes the image, and returns what `xv6 check`
    says of it. Where `saves` is set, that is said of the saved image too."""

    image: typing.Callable
    script: str = TO_THE_END
    frames: int = 256
    stdout: "bytes | re.Pattern" = b""
    end: str = ENDED
    saves: bool = False
    by: tuple = ("run",)

    def command(self, place):
        folder = place.new_folder()
        content, told = self.image(place)
        (folder / "image").write_bytes(content)
        (folder / "script").write_text(self.script)
        saving = ["--save", "saved"] if self.saves else []
        words = [place.xv6, *self.by, "--frames", str(self.frames), *saving, "image", "script"]
        then = Command([place.xv6, "check", "saved"], folder, told) if self.saves else None
        return Command(words, folder, self.stdout, self.end, then)


@dataclasses.dataclass(frozen=True)
class Mkfs:
    """`xv6 mkfs` of a manifest over files, each with its bytes, and what `xv6 check` says of the image."""

    manifest: str
    told: bytes
    hosts: typing.Mapping = dataclasses.field(default_factory=dict)
    size: int = 16384
    inodes: int = 8192

    def command(self, place):
        folder = place.new_folder()
        (folder / "manifest").write_text(self.manifest)
        for name, content in self.hosts.items():
            (folder / name).write_bytes(content)
        numbers = ["--size", str(self.size), "--inodes", str(self.inodes)]
        then = Command([place.xv6, "check", "image"], folder, self.told)
        return Command([place.xv6, "mkfs", *numbers, "manifest", "image"], folder, then=then)


@dataclasses.dataclass(frozen=True)
class Check:
    """`xv6 check` of an image, and what it says. A function makes both."""

    image: typing.Callable

    def command(self, place):
        folder = place.new_folder()
        content, told = self.image()
        (folder / "image").write_bytes(content)
        return Command([place.xv6, "check", "image"], folder, told)


@dataclasses.dataclass(frozen=True)
class OnImage:
    """A command of `xv6` on a file `image`, beside files of the host, each with its bytes; what it prints, and where it writes the
    image, how what `xv6 check` says of it changes. A function makes the image, and what is said of it before."""

    image: typing.Callable
    words: tuple
    stdout: "bytes | re.Pattern" = b""
    hosts: typing.Mapping = dataclasses.field(default_factory=dict)
    changed: "typing.Callable | None" = None

    def command(self, place):
        folder, (image, told) = place.new_folder(), self.image()
        for name, content in {**self.hosts, "image": image}.items():
            (folder / name).write_bytes(content)
        then = Command([place.xv6, "check", "image"], folder, self.changed(told)) if self.changed else None
        return Command([place.xv6, *self.words], folder, self.stdout, then=then)


@dataclasses.dataclass(frozen=True)
class Assembled:
    """`xv6 asm` of a text, and what `xv6 dump` prints of its file."""

    text: str
    dump: str

    def command(self, place):
        folder = place.new_folder()
        (folder / "text").write_text(self.text)
        then = Command([place.xv6, "dump", "elf"], folder, self.dump.encode())
        return Command([place.xv6, "asm", "text", "elf"], folder, then=then)
