#!/usr/bin/env python3
"""Grades programs for xv6: each test boots its own machine, and what a test gives is the same on each computer.

It needs Python 3.10 or newer and the program xv6 (the variable XV6 names it); a rubric in TOML needs Python 3.11.
docs/COURSE.md is the guide; `grade.py --keys` prints what a rubric may say.
"""
from __future__ import annotations

import argparse
import base64
import dataclasses
import difflib
import enum
import functools
import gzip
import hashlib
import html
import importlib.util
import itertools
import json
import os
import pathlib
import random
import re
import resource
import shutil
import subprocess
import sys
import tempfile
import time
import types
import zlib
from collections import Counter
from collections.abc import Callable, Iterable, Iterator, Mapping, Sequence
from dataclasses import dataclass, field
from typing import Any, NoReturn, Optional, Union

if sys.version_info >= (3, 11):
    import tomllib

EXAMPLE = """\
A rubric, util.toml, of two tests:

    title = "Lab util"
    points = 15
    programs = ["sleep", "pingpong"]

    [machine]
    manifest = "manifest"
    schedules = [0, 1000, "random 7 200"]

    [[test]]
    name = "pingpong"
    points = 10
    type = ["pingpong"]
    match = ['^\\d+: received ping$', '^\\d+: received pong$']
    unwaited = false

    [[test]]
    name = "sleep, returns"
    points = 5
    type = ["sleep 10"]
    schedules = [1000]
    output = ""
    ticks = { least = 10, most = 11 }

Example, where the folder `ada` has the compiled programs sleep and pingpong:

    XV6=out/xv6 course/grade.py --html out/ada util.toml ada

Statuses: 0 all passed, 1 some failed, 2 the command line, 3 the rubric has a fault or something cannot be read."""

# What a rubric may say: the keys of each table.
TOP_KEYS = {
    "title": "the lab's name",
    "points": "what the tests' points add up to",
    "programs": "the names of compiled programs of FOLDER; each is on the image as /NAME",
    "machine": "the table of what all tests have in common",
    "test": "the tests, each a table",
    "hidden_tests": "a file beside the rubric with more tests, all hidden; without the file they are left out",
}
MACHINE_KEYS = {
    "manifest": "a file beside the rubric, as `xv6 mkfs` takes it; its host files are beside it",
    "frames": "frames of memory, 64 to 32768 (256)",
    "steps": "steps that each typed line may take (1000000)",
    "schedules": 'the runs of each test: 0 has no ticks, N one each N steps, "random SEED N" by chance ([0])',
    "size": "blocks of the image, 32 to 131072 (2000)",
    "inodes": "inodes of the image, 16 to 8192 (200)",
}
TEST_KEYS = {
    "name": "the test's name, each another one",
    "points": "what it gives",
    "type": "lines that are typed at the shell, each at its prompt",
    "keys": "codes of keys, two digits of base 16 each, typed right after the last line",
    "play": "a play (a file beside the rubric) instead of typed lines; what is judged is all that the console printed",
    "script": "a script of FOLDER, as `xv6 run` takes it; what is judged is all that the console printed",
    "end": 'when it is over: "prompt", "quiet" (idle, and nobody sleeps), "idle" or "halt" (process 1 has ended)',
    "files": "files beside those of the manifest: path = text, { file = NAME } (beside the rubric) or { hex = DIGITS }",
    "make": '"FILE:NAME", a function of a Python file beside the rubric, which returns more files: a dict',
    "draw": "values by the seed: NAME = [least, most] or a list of words; %{NAME} stands for it, %1 to %9 for names",
    "output": "the text that is printed, to the byte",
    "output_file": "the same, of a file beside the rubric",
    "lines": "the lines that are printed, in any order, and no others",
    "order": "lines that are printed in this order; others may come in between",
    "match": "regular expressions, each of which matches a line",
    "match_order": "regular expressions, each of which matches a line after that of the one before it",
    "not": "regular expressions that match no line",
    "left": "files at the end: path = text, { file = NAME }, { hex = DIGITS }, true (it is there) or false (it is not)",
    "status": "exit statuses: program = status, of each process of that name; -1 of one that was killed or had a fault",
    "faults": "how many faults there are, or \"any\" (0)",
    "ticks": "how many ticks pass from the first event of the test's programs to their end: { least = N, most = M }",
    "open_at_exit": "program = the most descriptors above 2 that a process of that name has open as it ends",
    "unwaited": "false: no process ends with children that it did not wait for",
    "calls": "calls that the test's programs and their children make: a list of names, or name = the least count",
    "no_calls": "calls that they don't make",
    "most_steps": "points by the steps of the run, with the boot: { full = N, none = M }; in proportion in between",
    "check": '"FILE:NAME", a function of a Python file beside the rubric: it gets the run, and returns None or why not',
    "part_of": "the part of the lab that the test is of",
    "needed": "true: if it fails, its part gives no points",
    "hint": "what a failed test says to the student",
    "hidden": "true: students don't see it before the grades are published",
    "program": "the programs without which it can't be run; if not given, those that its typed lines name",
    "frames": "as in [machine]",
    "steps": "as in [machine]",
    "schedules": "as in [machine]",
}

CALLS = (
    "fork exit wait pipe read kill exec fstat chdir dup getpid sbrk sleep uptime "
    "open write mknod unlink link mkdir close"
).split()
ENDS = ("prompt", "quiet", "idle", "halt")

CONSOLE_LIMIT = 1_000_000  # bytes of the console after which a run is ended
SHOWN_LIMIT = 20_000  # bytes of it that a result holds
TRACE_LIMIT = 64_000_000  # bytes of a trace's file
LINES_READ = 1000  # lines of a trace that are read at once
SECONDS_LIMIT = 120  # processor time of one run: beyond that something is wrong with the host
SHOWN_MARKS = 3  # good and bad lines that are shown, each
WIDTH = 160  # characters of a line of a console that is too long
LINE_LIMIT = 1_000  # bytes of a line on which a regular expression is tried
BOOT_STEPS = 1_000_000
PAGE = pathlib.Path(__file__).resolve().parent.parent / "out" / "web" / "xv6.html"
CALLS_SHOWN = 8
WAITING_SHOWN = 12
PROCESSES_SHOWN = 20
SCRIPT_STEPS = 20_000  # how far the page goes of a run that prints without end
SHARED_CALLS = 10_000  # the most calls of a run that is kept for other tests
LOOKED_STEPS = 200_000  # how many steps a wait may take of a run that is looked at at once
EXPLAINED_STEPS = 200_000  # how far a run that does not end is looked at
NAME_LETTERS = "abcdefghijklmnopqrstuvwxyz"

Value = Union[str, int, bool, list["Value"], dict[str, "Value"]]
Path = tuple[Union[str, int], ...]
Table = dict[str, Any]
Word = Union[str, pathlib.Path]


# ---- where a rubric says something


class RubricFault(Exception):
    """What is wrong with a rubric, or with a file that it names, and where."""

    def __init__(self, file: str, line: int, reason: str) -> None:
        super().__init__(f"{file}:{line}: {reason}" if line else f"{file}: {reason}")


@dataclass(frozen=True)
class Source:
    """What a text of TOML or JSON says, and how the lines of its keys are found."""

    file: str
    values: Table
    find_lines: Callable[[], Mapping[Path, int]]

    def line(self, path: Path) -> int:
        """The line of a key, or of the nearest table above it that has one."""
        lines = self.find_lines()
        while path and path not in lines:
            path = path[:-1]
        return lines.get(path, 1)

    def refuse(self, path: Path, reason: str) -> NoReturn:
        raise RubricFault(self.file, self.line(path), reason)


TOML_TOKEN = re.compile(
    r'"""(?:[^"\\]|\\.|"(?!""))*"""|\'\'\'.*?\'\'\'|"(?:[^"\\\n]|\\.)*"|\'[^\'\n]*\''
    r'|#[^\n]*|\n|[\[\]{}=,]|[^\s\[\]{}=,"\'#]+',
    re.DOTALL,
)


def toml_lines(text: str) -> dict[Path, int]:
    """The lines of the keys of a right TOML text: of its tables, and of the keys in them outside of brackets."""
    lines: dict[Path, int] = {}
    counts: Counter[str] = Counter()
    table: Path = ()
    depth = 0
    words: list[str] = []
    for token in TOML_TOKEN.finditer(text):
        word, line = token[0], text.count("\n", 0, token.start()) + 1
        if word == "\n" and depth == 0:
            head = "".join(words)
            if head.startswith("[["):
                name = head[2:-2]
                table = (name, counts[name])
                counts[name] += 1
                lines[table] = line
            elif head.startswith("["):
                table = (head[1:-1],)
                lines[table] = line
            words = []
        elif word == "=" and depth == 0 and words:
            lines[table + (words[-1].strip("\"'"),)] = line
            words = ["="]
        elif not word.startswith("#") and word != "\n":
            depth += (word in "[{") - (word in "]}") if "=" in words else 0
            words.append(word)
    return lines


class JsonLines:
    """The lines of the keys of a JSON text, whose values it reads by the way; a key that is there twice is a fault."""

    SPACE = re.compile(r"\s*")

    def __init__(self, file: str, text: str) -> None:
        self.file, self.text, self.lines = file, text, dict[Path, int]()
        self.decoder = json.JSONDecoder()
        self.walk((), 0)

    def skip(self, at: int) -> int:
        match = self.SPACE.match(self.text, at)
        return match.end() if match else at

    def line(self, at: int) -> int:
        return self.text.count("\n", 0, at) + 1

    def walk(self, path: Path, at: int) -> int:
        """Notes the lines of what begins at an offset, and returns the offset of its end."""
        at = self.skip(at)
        self.lines.setdefault(path, self.line(at))
        if self.text[at] not in "{[":
            return self.decoder.raw_decode(self.text, at)[1]
        is_table, index = self.text[at] == "{", 0
        at = self.skip(at + 1)
        while self.text[at] not in "}]":
            at, step = self.key(path, at) if is_table else (at, index)
            at = self.skip(self.walk(path + (step,), at))
            index += 1
            at = self.skip(at + 1) if self.text[at] == "," else at
        return at + 1

    def key(self, path: Path, at: int) -> tuple[int, str | int]:
        name, end = self.decoder.raw_decode(self.text, at)
        if path + (name,) in self.lines:
            raise RubricFault(self.file, self.line(at), f"{name}: the key is there twice")
        self.lines[path + (name,)] = self.line(at)
        return self.skip(end) + 1, name


def read_source(name: str) -> Source:
    """Reads a rubric: JSON if its name ends so, else TOML."""
    try:
        text = pathlib.Path(name).read_text(encoding="utf-8")
    except (OSError, UnicodeDecodeError) as error:
        raise RubricFault(name, 0, f"cannot be read: {reason_of(error)}") from None
    return json_source(name, text) if name.endswith(".json") else toml_source(name, text)


def reason_of(error: Exception) -> str:
    return error.strerror or type(error).__name__ if isinstance(error, OSError) else "it is no UTF-8"


def json_source(name: str, text: str) -> Source:
    try:
        values = json.loads(text)
    except json.JSONDecodeError as error:
        raise RubricFault(name, error.lineno, f"no JSON: {error.msg}") from None
    if not isinstance(values, dict):
        raise RubricFault(name, 1, "a rubric is a table")
    lines = JsonLines(name, text).lines
    return Source(name, values, lambda: lines)


def toml_source(name: str, text: str) -> Source:
    if sys.version_info < (3, 11):
        raise RubricFault(name, 0, "TOML needs Python 3.11: write the rubric as JSON")
    try:
        return Source(name, tomllib.loads(text), lambda: toml_lines(text + "\n"))
    except tomllib.TOMLDecodeError as error:
        position = re.search(r"^(.*) \(at (?:line (\d+), column \d+|end of document)\)$", str(error))
        line = int(position[2]) if position and position[2] else text.count("\n") + 1
        raise RubricFault(name, line, f"no TOML: {position[1] if position else error}") from None


# ---- what a rubric says


class Missing(enum.Enum):
    """No value: of a key that has to be there."""

    VALUE = enum.auto()


@dataclass
class Reader:
    """A table of a rubric, from which keys are taken. An unknown key is a fault, and so is a value of another type."""

    source: Source
    path: Path
    known: Mapping[str, str]
    values: Table

    def __post_init__(self) -> None:
        for key in self.values:
            if key not in self.known:
                near = difflib.get_close_matches(key, self.known, 1)
                self.refuse(key, f"{key}: there is no such key" + (f"; did you mean {near[0]}?" if near else ""))

    def refuse(self, key: str, reason: str) -> NoReturn:
        self.source.refuse(self.path + (key,), reason)

    def take(self, key: str, kind: type, what: str, default: Any) -> Any:
        if key not in self.values:
            if default is Missing.VALUE:
                self.source.refuse(self.path, f"{key} is missing")
            return default
        value = self.values[key]
        if not isinstance(value, kind) or (kind is int and isinstance(value, bool)):
            self.refuse(key, f"{key}: {what} is wanted")
        return value

    def text(self, key: str, default: Any = Missing.VALUE) -> Any:
        return self.take(key, str, "a text", default)

    def number(self, key: str, least: int, most: int, default: Any = Missing.VALUE) -> Any:
        value = self.take(key, int, "a number", default)
        if key in self.values and not least <= value <= most:
            self.refuse(key, f"{key}: a number from {least} to {most} is wanted")
        return value

    def flag(self, key: str) -> bool:
        return bool(self.take(key, bool, "true or false", False))

    def texts(self, key: str, default: Any = ()) -> Any:
        values = self.take(key, list, "a list of texts", default)
        if not all(isinstance(value, str) for value in values or ()):
            self.refuse(key, f"{key}: a list of texts is wanted")
        return None if values is None else tuple(values)

    def table(self, key: str) -> Table:
        return dict(self.take(key, dict, "a table", {}))

    def numbers(self, key: str) -> dict[str, int]:
        table = self.table(key)
        for name, value in table.items():
            if not isinstance(value, int) or isinstance(value, bool):
                self.refuse(key, f"{key}: {name}: a number is wanted")
        return table

    def pair(self, key: str, low: str, high: str) -> Optional[tuple[int, int]]:
        """A table of two numbers, the first of which is less or as much."""
        if key not in self.values:
            return None
        table = self.numbers(key)
        if set(table) != {low, high} or not 0 <= table[low] <= table[high]:
            self.refuse(key, f"{key}: {{ {low} = N, {high} = M }} is wanted, N at most M")
        return table[low], table[high]

    def patterns(self, key: str) -> tuple[str, ...]:
        for pattern in self.texts(key):
            try:
                re.compile(pattern)
            except re.error as error:
                self.refuse(key, f"{key}: {pattern!r} is no regular expression: {error}")
        return tuple(self.texts(key))

    def beside(self, key: str) -> Optional[pathlib.Path]:
        """A file beside the rubric."""
        name = self.text(key, None)
        if name is None:
            return None
        return self.existing(key, name)

    def existing(self, key: str, name: str) -> pathlib.Path:
        path = pathlib.Path(self.source.file).parent / name
        if not path.is_file():
            self.refuse(key, f"{key}: there is no file {name}")
        return path

    def contents(self, key: str, allowed: tuple[type, ...]) -> dict[str, "Content"]:
        """Paths on the image with what they hold."""
        found = {}
        for name, value in self.table(key).items():
            parts = name.split("/")
            if parts[0] != "" or len(parts) < 2 or not all(map(is_name, filter(None, parts))):
                self.refuse(key, f"{key}: {name!r}: a path begins with /, and a name has at most 14 bytes and no blank")
            found[name] = self.content(key, name, value, allowed)
        return found

    def content(self, key: str, name: str, value: Any, allowed: tuple[type, ...]) -> "Content":
        if isinstance(value, allowed):
            return value if isinstance(value, (str, bool)) else self.refuse(key, f"{key}: {name}: a text is wanted")
        if isinstance(value, dict) and list(value) == ["file"] and isinstance(value["file"], str):
            return self.existing(key, value["file"]).read_bytes()
        if isinstance(value, dict) and list(value) == ["hex"] and isinstance(value["hex"], str):
            return self.bytes_of(key, value["hex"])
        self.refuse(key, f"{key}: {name}: a text, {{ file = NAME }} or {{ hex = DIGITS }} is wanted")

    def bytes_of(self, key: str, digits: str) -> bytes:
        try:
            return bytes.fromhex(digits)
        except ValueError:
            self.refuse(key, f"{key}: digits of base 16 are wanted, two a byte")

    def function(self, key: str) -> Optional[Callable[..., Any]]:
        """A function of a Python file beside the rubric."""
        name = self.text(key, None)
        if name is None:
            return None
        file, colon, function = name.partition(":")
        if not colon:
            self.refuse(key, f'{key}: "FILE:NAME" is wanted, of the function NAME in FILE.py')
        found = getattr(self.module(key, file), function, None)
        if not callable(found):
            self.refuse(key, f"{key}: there is no function {function} in {file}.py")
        return found  # type: ignore[no-any-return]

    def module(self, key: str, file: str) -> types.ModuleType:
        path = self.existing(key, f"{file}.py")
        try:
            return module_of(path)
        except Exception as error:
            self.refuse(key, f"{key}: {file}.py: {type(error).__name__}: {error}")


@functools.cache
def module_of(path: pathlib.Path) -> types.ModuleType:
    """A Python file as a module."""
    spec = importlib.util.spec_from_file_location(f"rubric_{path.stem}", path)
    assert spec and spec.loader
    module = importlib.util.module_from_spec(spec)
    try:
        spec.loader.exec_module(module)
    except ModuleNotFoundError:
        if "site" in sys.modules:
            raise
        # class.sh starts Python without the packages that are installed beside it.
        import site

        site.main()
        spec.loader.exec_module(module)
    return module


def names_in(code: types.CodeType) -> set[str]:
    """The names that a piece of code has, with those of the functions and lists in it."""
    inner = [names_in(part) for part in code.co_consts if isinstance(part, types.CodeType)]
    return set(code.co_names).union(*inner)


def names_asked(function: Callable[..., Any]) -> set[str]:
    """The names that a function has, with those of the functions of its file that it calls, and so on."""
    names: set[str] = set()
    todo: list[Any] = [function]
    while todo:
        asked = todo.pop()
        if isinstance(asked, types.FunctionType) and asked.__module__ == function.__module__:
            more = names_in(asked.__code__) - names
            names |= more
            todo += [asked.__globals__.get(name) for name in more]
    return names


Content = Union[str, bytes, bool]


class Depth(enum.IntEnum):
    """How closely a run is looked at."""

    CONSOLE = enum.auto()  # what it prints and leaves
    REPORT = enum.auto()  # the faults and statuses of its processes, too
    ENDS = enum.auto()  # what they hold as they end, too
    CALLS = enum.auto()  # each call, too


@dataclass(frozen=True)
class Schedule:
    """When ticks come: a line of a play, or none."""

    name: str
    line: str

    @staticmethod
    def read(reader: Reader, value: Any) -> "Schedule":
        most = 1_000_000_000
        if isinstance(value, int) and not isinstance(value, bool) and 0 <= value <= most:
            return Schedule(f"a tick each {value} steps", f"every {value} tick") if value else Schedule("no ticks", "")
        words = re.fullmatch(r"random (\d{1,9}) ([1-9]\d{0,8})", value) if isinstance(value, str) else None
        if not words:
            reader.refuse("schedules", f'schedules: {value!r}: a number of steps, 0 or "random SEED N" is wanted')
        return Schedule(
            f"a tick each {words[2]} steps on average, seed {words[1]}", f"random {words[1]} {words[2]} tick"
        )


@dataclass(frozen=True)
class Machine:
    """What a test runs on."""

    frames: int = 256
    steps: int = 1_000_000
    schedules: tuple[Schedule, ...] = (Schedule("no ticks", ""),)
    size: int = 2000
    inodes: int = 200
    manifest: Optional[pathlib.Path] = None

    @staticmethod
    def read(reader: Reader, base: "Machine") -> "Machine":
        schedules = reader.take("schedules", list, "a list of schedules", None)
        if schedules == []:
            reader.refuse("schedules", "schedules: at least one is wanted")
        return dataclasses.replace(
            base,
            frames=reader.number("frames", 64, 32768, base.frames),
            steps=reader.number("steps", 1, 1_000_000_000, base.steps),
            schedules=base.schedules
            if schedules is None
            else tuple(Schedule.read(reader, value) for value in schedules),
        )


@dataclass(frozen=True)
class Test:
    """A test of a rubric: what is run, and what has to come of it."""

    name: str
    points: int
    machine: Machine
    typed: tuple[str, ...]
    keys: bytes
    play: Optional[pathlib.Path]
    script: Optional[str]
    end: str
    programs: tuple[str, ...]
    files: Mapping[str, Content]
    make: Optional[Callable[..., Any]]
    draw: Mapping[str, Sequence[Any]]
    output: Optional[str]
    lines: Optional[tuple[str, ...]]
    order: tuple[str, ...]
    match: tuple[str, ...]
    match_order: tuple[str, ...]
    never: tuple[str, ...]
    left: Mapping[str, Content]
    status: Mapping[str, int]
    faults: Optional[int]
    ticks: Optional[tuple[int, int]]
    open_at_exit: Mapping[str, int]
    unwaited: bool
    calls: Mapping[str, int]
    no_calls: tuple[str, ...]
    most_steps: Optional[tuple[int, int]]
    check: Optional[Callable[..., Any]]
    part: str
    needed: bool
    hint: str
    hidden: bool

    @property
    def runs(self) -> bool:
        """Whether a machine is booted for it; else only its function looks at the folder."""
        return bool(self.typed or self.play or self.script)

    @functools.cached_property
    def asked(self) -> set[str]:
        """The names by which its function may ask for something of a run that takes time. If it asks in another way it
        gets that, too, by one more run."""
        return names_asked(self.check) & {"trace", "ticks", "file", "saved"} if self.check and self.runs else set()

    @property
    def wants_files(self) -> bool:
        """Whether it looks at files that a run leaves."""
        return bool(self.left or self.asked & {"file", "saved"})

    @property
    def depth(self) -> Depth:
        """How closely each of its runs is looked at."""
        if self.ticks or self.calls or self.no_calls or self.asked & {"trace", "ticks"}:
            return Depth.CALLS
        if self.open_at_exit or not self.unwaited:
            return Depth.ENDS
        return Depth.REPORT if self.status or self.faults or (self.check and self.runs) else Depth.CONSOLE

    @functools.cached_property
    def same(self) -> object:
        """What its runs depend on beside the schedule. Tests that have the same here share their runs."""
        machine, files = self.machine, tuple(sorted(self.files.items()))
        parts = (self.typed, self.keys, self.end, self.programs, machine.frames, machine.steps, files)
        is_alone = self.play or self.script or self.make or self.wants_files or "%" in repr(parts)
        return self.name if is_alone else parts


@dataclass(frozen=True)
class Rubric:
    """A lab's tests."""

    file: str
    title: str
    points: int
    programs: tuple[str, ...]
    machine: Machine
    tests: tuple[Test, ...]
    hash: str


def read_test(reader: Reader, machine: Machine, programs: Sequence[str], hidden: bool) -> Test:
    output_file = reader.beside("output_file")
    test = Test(
        name=reader.text("name"),
        points=reader.number("points", 0, 1_000_000),
        machine=Machine.read(reader, machine),
        typed=reader.texts("type"),
        keys=reader.bytes_of("keys", reader.text("keys", "")),
        play=reader.beside("play"),
        script=reader.text("script", None),
        end=reader.text("end", "prompt"),
        programs=(),
        files=reader.contents("files", (str,)),
        make=reader.function("make"),
        draw=read_draw(reader),
        output=output_file.read_bytes().decode("latin-1") if output_file else reader.text("output", None),
        lines=reader.texts("lines", None),
        order=reader.texts("order"),
        match=reader.patterns("match"),
        match_order=reader.patterns("match_order"),
        never=reader.patterns("not"),
        left=reader.contents("left", (str, bool)),
        status=reader.numbers("status"),
        faults=read_faults(reader),
        ticks=reader.pair("ticks", "least", "most"),
        open_at_exit=reader.numbers("open_at_exit"),
        unwaited=reader.take("unwaited", bool, "true or false", True),
        calls=read_calls(reader),
        no_calls=reader.texts("no_calls"),
        most_steps=reader.pair("most_steps", "full", "none"),
        check=reader.function("check"),
        part=reader.text("part_of", ""),
        needed=reader.flag("needed"),
        hint=reader.text("hint", ""),
        hidden=hidden or reader.flag("hidden"),
    )
    refuse_wrong(reader, test)
    return dataclasses.replace(test, programs=programs_of(reader, test, programs))


def read_draw(reader: Reader) -> dict[str, Sequence[Any]]:
    draw = reader.table("draw")
    for name, values in draw.items():
        is_range = (
            isinstance(values, list)
            and len(values) == 2
            and all(type(value) is int for value in values)
            and values[0] <= values[1]
        )
        is_words = isinstance(values, list) and values and all(isinstance(value, str) for value in values)
        if not is_range and not is_words:
            reader.refuse("draw", f"draw: {name}: [least, most] or a list of texts is wanted")
    return draw


def read_faults(reader: Reader) -> Optional[int]:
    if reader.values.get("faults") == "any":
        return None
    count: int = reader.number("faults", 0, 1000, 0)
    return count


def read_calls(reader: Reader) -> dict[str, int]:
    if isinstance(reader.values.get("calls"), dict):
        return reader.numbers("calls")
    return {name: 1 for name in reader.texts("calls")}


def programs_of(reader: Reader, test: Test, programs: Sequence[str]) -> tuple[str, ...]:
    named = reader.texts("program", None)
    if named is not None:
        for name in named:
            if name not in programs:
                reader.refuse("program", f"program: {name} is none of the rubric's programs")
        return tuple(named)
    words = set(re.split(r"[\s;&|()<>]+", " ".join(test.typed)))
    return tuple(name for name in programs if name in words)


def refuse_wrong(reader: Reader, test: Test) -> None:
    """What one key alone doesn't show."""
    ways = [key for key in ("type", "play", "script") if key in reader.values]
    if len(ways) > 1:
        reader.refuse(ways[1], f"{ways[0]} and {ways[1]}: one of them is wanted")
    if not ways and not test.check:
        reader.refuse("name", f"{test.name}: type, play, script or check is missing")
    if "output" in reader.values and "output_file" in reader.values:
        reader.refuse("output_file", "output and output_file: one of them is wanted")
    for line in test.typed:
        if "\n" in line or len(line.encode()) > 126:
            reader.refuse("type", f"type: {line[:20]!r}: a line has at most 126 bytes and no line end")
    if test.end not in ENDS:
        reader.refuse("end", f"end: {test.end!r}: one of {', '.join(ENDS)} is wanted")
    for key, names in (("calls", test.calls), ("no_calls", test.no_calls)):
        for name in names:
            if name not in CALLS:
                near = difflib.get_close_matches(name, CALLS, 1)
                reader.refuse(key, f"{key}: there is no call {name}" + (f"; did you mean {near[0]}?" if near else ""))
    if test.ticks and not test.play and any(not schedule.line for schedule in test.machine.schedules):
        reader.refuse(
            "ticks", "ticks: schedule 0 has no ticks, so these can't pass: give the test schedules of its own"
        )
    if test.needed and not test.part:
        reader.refuse("needed", "needed: a part is wanted (part_of)")
    refuse_wrong_names(reader, test)


def refuse_wrong_names(reader: Reader, test: Test) -> None:
    """A %{NAME} that isn't drawn."""
    for key, value in reader.values.items():
        for name in re.findall(r"%\{(.*?)\}", json.dumps(value, default=str)):
            if name not in test.draw:
                reader.refuse(key, f"{key}: %{{{name}}} is not drawn (draw = {{ {name} = .. }})")


def is_name(name: str) -> bool:
    """Whether a directory of an image may have such a name."""
    return 1 <= len(name.encode()) <= 14 and not re.search(r"\s", name)


def read_tests(source: Source, machine: Machine, programs: Sequence[str], hidden: bool) -> list[Test]:
    tests = source.values.get("test", [])
    if not isinstance(tests, list) or not tests or not all(isinstance(test, dict) for test in tests):
        source.refuse(("test",), "tests are missing ([[test]])")
    return [
        read_test(Reader(source, ("test", index), TEST_KEYS, values), machine, programs, hidden)
        for index, values in enumerate(tests)
    ]


def refuse_wrong_sum(source: Source, tests: Sequence[Test]) -> int:
    points = Reader(source, (), TOP_KEYS, source.values).number("points", 0, 1_000_000)
    total = sum(test.points for test in tests)
    if total != points:
        source.refuse(("points",), f"points: the tests add up to {total}, not to {points}")
    return int(points)


def read_rubric(name: str) -> Rubric:
    """Reads a rubric, and all files that it names."""
    source = read_source(name)
    top = Reader(source, (), TOP_KEYS, source.values)
    table = Reader(source, ("machine",), MACHINE_KEYS, top.table("machine"))
    machine = dataclasses.replace(
        Machine.read(table, Machine()),
        size=table.number("size", 32, 131072, 2000),
        inodes=table.number("inodes", 16, 8192, 200),
        manifest=table.beside("manifest"),
    )
    programs = top.texts("programs")
    for program in programs:
        if not is_name(program) or "/" in program:
            top.refuse("programs", f"programs: {program!r}: a name has 1 to 14 bytes, no blank and no /")
    tests = read_tests(source, machine, programs, hidden=False)
    points = refuse_wrong_sum(source, tests)
    files = [pathlib.Path(name)]
    hidden = top.text("hidden_tests", None)
    hidden_path = pathlib.Path(name).parent / hidden if hidden else None
    if hidden_path and hidden_path.is_file():
        more = read_source(str(hidden_path))
        hidden_tests = read_tests(more, machine, programs, hidden=True)
        points += refuse_wrong_sum(more, hidden_tests)
        tests += hidden_tests
        files.append(hidden_path)
    refuse_twice(source, tests)
    sums = hashlib.sha256(b"".join(path.read_bytes() for path in files)).hexdigest()
    return Rubric(name, top.text("title"), points, programs, machine, tuple(tests), sums)


def refuse_twice(source: Source, tests: Sequence[Test]) -> None:
    names: set[str] = set()
    for index, test in enumerate(tests):
        if test.name in names:
            source.refuse(("test", index, "name"), f"name: {test.name!r} is there twice")
        names.add(test.name)


# ---- a submission's own names and numbers


@dataclass(frozen=True)
class Values:
    """Names and numbers by a seed, and the texts that have them."""

    names: tuple[str, ...]
    drawn: Mapping[str, str]

    @staticmethod
    def of(test: Test, seed: str) -> "Values":
        chance = random.Random(f"{seed} {test.name}")
        names: list[str] = []
        while len(names) < 9:
            name = "".join(chance.choice(NAME_LETTERS) for _ in range(5))
            names += [name] if name not in names else []
        drawn = {
            name: str(chance.choice(values) if isinstance(values[0], str) else chance.randint(*values))
            for name, values in sorted(test.draw.items())
        }
        return Values(tuple(names), drawn)

    def fill(self, text: str) -> str:
        def value(match: re.Match[str]) -> str:
            sign = match[1]
            return "%" if sign == "%" else self.drawn[sign[1:-1]] if sign[0] == "{" else self.names[int(sign) - 1]

        return re.sub(r"%(%|[1-9]|\{.*?\})", value, text)

    def fill_all(self, texts: Iterable[str]) -> list[str]:
        return [self.fill(text) for text in texts]

    def fill_files(self, files: Mapping[str, Content]) -> dict[str, Content]:
        return {
            self.fill(path): self.fill(content) if isinstance(content, str) else content
            for path, content in files.items()
        }


# ---- the program xv6


class CannotRun(Exception):
    """A test could not be run: the reason is no fault of what the submission does, but of what it is."""


@dataclass(frozen=True)
class Done:
    """A call of the program that has ended."""

    status: int
    output: bytes
    error: str
    is_cut: bool = False


def limit_host(pid: int) -> None:
    """Bounds what a run may take of the host, beside its steps."""
    if hasattr(resource, "prlimit"):
        resource.prlimit(pid, resource.RLIMIT_CPU, (SECONDS_LIMIT, SECONDS_LIMIT))
        resource.prlimit(pid, resource.RLIMIT_FSIZE, (4 * TRACE_LIMIT, 4 * TRACE_LIMIT))


# A run takes some megabytes at its start and ends soon: large pages, and one piece of memory, save a fifth of its time.
ENVIRONMENT = {
    "GLIBC_TUNABLES": "glibc.malloc.hugetlb=1:glibc.malloc.mmap_threshold=67108864:glibc.malloc.top_pad=16777216",
    **os.environ,
}


@dataclass
class Engine:
    """The program, and a folder for what it reads and writes."""

    program: str
    scratch: pathlib.Path

    def path(self, name: str) -> str:
        """The name of a file of the folder."""
        return f"{self.scratch}/{name}"

    def call(self, *words: Word, most: int = CONSOLE_LIMIT) -> Done:
        """Calls the program. If it prints more bytes than that, it is ended."""
        with open(self.path("error"), "w+b") as error:
            child = subprocess.Popen(
                [self.program, *map(str, words)],
                stdin=subprocess.DEVNULL,
                stdout=subprocess.PIPE,
                stderr=error,
                env=ENVIRONMENT,
                close_fds=False,  # none of them is handed on anyway, and a start costs less
            )
            limit_host(child.pid)
            assert child.stdout
            output = child.stdout.read(most + 1)
            if len(output) > most:
                child.kill()
            child.stdout.close()
            status = child.wait()
            error.seek(0)
            said = error.read(SHOWN_LIMIT).decode("utf-8", "replace").replace(str(self.scratch), "")
        return Done(status, output[:most], said, len(output) > most)

    def version(self) -> str:
        return self.call("--version").output.decode().removeprefix("xv6").strip()


@dataclass(frozen=True)
class ManifestLine:
    kind: str
    path: str
    rest: str


def read_manifest(path: Optional[pathlib.Path]) -> list[ManifestLine]:
    """The lines of a manifest, with host files by whole names."""
    lines: list[ManifestLine] = []
    for number, text in enumerate(path.read_text().splitlines() if path else [], 1):
        match = re.fullmatch(r"(?:(dir) (\S+)|(file) (\S+) (.+)|(dev) (\S+) (\d+ \d+))", text)
        if not match:
            raise RubricFault(str(path), number, "dir PATH, file PATH HOSTFILE or dev PATH MAJOR MINOR is wanted")
        kind, name, *rest = [part for part in match.groups() if part is not None]
        host = ""
        if kind == "file":
            assert path
            host = str((path.parent / rest[0]).resolve())
            if not os.path.isfile(host):
                raise RubricFault(str(path), number, f"there is no file {rest[0]}")
        lines.append(ManifestLine(kind, name, host or "".join(rest)))
    return lines


def parents(path: str) -> Iterator[str]:
    """The directories above a path, from the root on."""
    parts = path.strip("/").split("/")
    for count in range(1, len(parts)):
        yield "/" + "/".join(parts[:count])


@dataclass
class Images:
    """The images of a submission's tests: each other one is made once."""

    engine: Engine
    machine: Machine
    base: Sequence[ManifestLine]
    programs: Mapping[str, pathlib.Path]
    made: dict[str, pathlib.Path] = field(default_factory=dict)
    hosted: dict[bytes, pathlib.Path] = field(default_factory=dict)

    def lines(self, programs: Iterable[str], files: Mapping[str, Content]) -> list[str]:
        own = {f"/{name}" for name in programs} | {path for path in files if not path.endswith("/")}
        lines = [text for line, text in self.base_lines if line.path not in own]
        known = {line.path for line in self.base if line.kind == "dir"}
        for path in files:
            for above in [*parents(path), *([path.rstrip("/")] if path.endswith("/") else [])]:
                if above not in known:
                    known.add(above)
                    lines.append(f"dir {above}")
        lines += [f"file /{name} {self.linked(self.programs[name])}" for name in programs if f"/{name}" not in files]
        return lines + [
            f"file {path} {self.host_file(content)}" for path, content in files.items() if not path.endswith("/")
        ]

    @functools.cached_property
    def base_lines(self) -> list[tuple[ManifestLine, str]]:
        return [(line, self.line_of(line)) for line in self.base]

    def line_of(self, line: ManifestLine) -> str:
        rest = str(self.linked(pathlib.Path(line.rest))) if line.kind == "file" else line.rest
        return f"{line.kind} {line.path} {rest}".rstrip()

    def linked(self, path: pathlib.Path) -> pathlib.Path:
        """A file by a name without blanks."""
        if not re.search(r"\s", str(path)):
            return path
        link = self.engine.scratch / ("link-" + hashlib.sha256(str(path).encode()).hexdigest()[:16])
        if not link.is_symlink():
            link.symlink_to(path)
        return link

    def host_file(self, content: Content) -> pathlib.Path:
        data = content.encode("latin-1") if isinstance(content, str) else bytes(content)
        if data not in self.hosted:
            path = self.hosted[data] = self.engine.scratch / ("file-" + hashlib.sha256(data).hexdigest()[:16])
            path.write_bytes(data)
        return self.hosted[data]

    def image(self, wanted: Sequence[str], files: Mapping[str, Content]) -> pathlib.Path:
        """An image with all programs, or at least those that are wanted."""
        try:
            return self.make(self.lines(self.programs, files))
        except CannotRun:
            return self.make(self.lines([name for name in wanted if name in self.programs], files))

    def make(self, lines: Sequence[str]) -> pathlib.Path:
        text = "\n".join(lines) + "\n"
        if text not in self.made:
            manifest, image = self.engine.scratch / "manifest", self.engine.scratch / f"{len(self.made)}.img"
            manifest.write_text(text)
            done = self.engine.call(
                "mkfs", "--size", str(self.machine.size), "--inodes", str(self.machine.inodes), manifest, image
            )
            if done.status:
                raise CannotRun(f"no image can be made of the programs and files: {done.error.strip()}")
            self.made[text] = image
        return self.made[text]


# ---- a run


@dataclass
class Call:
    """A call that returned, or that waits and never returned; `more` is the event that says so."""

    at: int
    pid: int
    program: str
    name: str
    arguments: tuple[int, ...]
    result: Optional[int]
    more: Mapping[str, Any]

    def __str__(self) -> str:
        """As strace shows it; of a call that waits its arguments alone."""
        words = [str(value) for value in self.arguments]
        shown_texts = [self.more[key] for key in ("path", "new_path", "argv", "ends") if self.more.get(key) is not None]
        if shown_texts:
            words = list(map(shown_value, shown_texts))
        elif self.more.get("data") is not None:
            words = [words[0], shown_value(self.more["data"]) + (".." if self.more.get("cut") else ""), words[2]]
        return f"{self.name}({', '.join(words)})" + (" .. waits" if self.result is None else f" = {self.result}")


def shown_value(value: Any) -> str:
    """A text in quotes, or a list of such, or a number."""
    if isinstance(value, list):
        return "[" + ", ".join(map(shown_value, value)) + "]"
    if not isinstance(value, str):
        return str(value)
    return '"' + printable(value.replace("\\", "\\\\").replace('"', '\\"')).replace("\\x0a", "\\n") + '"'


@dataclass(frozen=True)
class Exit:
    """The end of a process, with the descriptors that were open and the children that it did not wait for."""

    at: int
    pid: int
    parent: int
    program: str
    how: str
    status: int
    open: tuple[int, ...]
    unwaited: tuple[int, ...]


@dataclass
class Trace:
    """What the processes did: of the submission's programs and their descendants, or of all but process 1."""

    calls: list[Call] = field(default_factory=list)
    exits: list[Exit] = field(default_factory=list)
    own: set[int] = field(default_factory=set)
    begin: int = 0

    def own_calls(self) -> list[Call]:
        return [call for call in self.calls if call.pid in self.own]

    def own_exits(self) -> list[Exit]:
        return [end for end in self.exits if end.pid in self.own]


@functools.cache
def base_name(program: Optional[str]) -> str:
    return (program or "?").rsplit("/", 1)[-1]


class TraceReader:
    """Makes a trace of lines of events."""

    def __init__(self, programs: Sequence[str]) -> None:
        self.programs = set(programs)
        self.trace = Trace()
        self.children: dict[int, set[int]] = {}
        self.waiting: dict[int, Call] = {}

    def read(self, lines: Iterable[str]) -> Trace:
        for event in events_of(lines):
            if event["event"] in ("call", "wait", "exit"):
                self.note_owner(event)
            if event["event"] == "call":
                self.note_call(event)
            elif event["event"] == "wait":
                self.waiting[event["pid"]] = call_of(event)
            elif event["event"] == "exit":
                self.note_exit(event)
        self.trace.calls += [call for _, call in sorted(self.waiting.items())]
        return self.trace

    def note_owner(self, event: Table) -> None:
        is_own = base_name(event["program"]) in self.programs if self.programs else event["pid"] > 1
        if is_own:
            self.trace.own.add(event["pid"])
            self.trace.begin = self.trace.begin or event["at"]

    def note_call(self, event: Table) -> None:
        call = call_of(event)
        self.waiting.pop(call.pid, None)
        self.trace.calls.append(call)
        is_new = call.result is not None and call.result > 0
        if call.name == "fork" and is_new and call.result:
            self.children.setdefault(call.pid, set()).add(call.result)
            if call.pid in self.trace.own:
                self.trace.own.add(call.result)
        elif call.name == "wait" and is_new and call.result:
            self.children.get(call.pid, set()).discard(call.result)

    def note_exit(self, event: Table) -> None:
        self.waiting.pop(event["pid"], None)
        self.trace.exits.append(
            Exit(
                at=event["at"],
                pid=event["pid"],
                parent=event["parent"],
                program=base_name(event["program"]),
                how=event["how"],
                status=event["status"],
                open=tuple(held["descriptor"] for held in event["descriptors"]),
                unwaited=tuple(sorted(self.children.get(event["pid"], ()))),
            )
        )


def events_of(lines: Iterable[str]) -> Iterator[Table]:
    """Lines of JSON, many of which are read at once: that is three times as fast."""
    rest = iter(lines)
    while part := list(itertools.islice(rest, LINES_READ)):
        yield from json.loads(f"[{','.join(part)}]")


def call_of(event: Table) -> Call:
    program, arguments = base_name(event["program"]), tuple(event["arguments"])
    return Call(event["at"], event["pid"], program, event["call"], arguments, event.get("result"), event)


UNREACHED = re.compile(r":(\d+): not reached in (\d+) steps")


class End(enum.Enum):
    """How a run came to its end."""

    DONE = enum.auto()  # what was waited for came
    HALTED = enum.auto()  # process 1 ended
    UNREACHED = enum.auto()  # the steps were used up
    CUT = enum.auto()  # it printed too much


@dataclass(frozen=True)
class Look:
    """What was seen of a run."""

    report: Table
    trace: Trace
    depth: Depth


@dataclass
class Run:
    """One run of a test: what a function of the rubric gets, too."""

    test: Test
    schedule: Schedule
    values: Values
    runner: "Runner"
    image: pathlib.Path
    play: str = ""
    end: End = End.DONE
    said: str = ""
    console: str = ""
    output: str = ""
    recorded: Optional[str] = None
    looked: Optional[Look] = None
    kept: Optional[pathlib.Path] = None
    files: Optional[dict[str, Optional[bytes]]] = None

    @property
    def script(self) -> str:
        """The events of the run, as `xv6 run` takes them."""
        if self.recorded is None:
            self.recorded = self.runner.record(self)
        return self.recorded

    @property
    def report(self) -> Table:
        """The report of the run; if it used up its steps, of a shorter one."""
        return self.look(Depth.REPORT).report

    @property
    def trace(self) -> Trace:
        """What the run's processes did, of the same events as the report."""
        return self.look(Depth.CALLS).trace

    def look(self, depth: Depth) -> Look:
        """Does the same again if it wasn't looked at so closely, which may take much longer."""
        if not self.looked or self.looked.depth < depth:
            self.looked = self.runner.look(self, depth)
        return self.looked

    @property
    def lines(self) -> list[str]:
        """The lines that were printed from the last typed line on."""
        lines = self.output.split("\n")
        return lines if lines[-1] else lines[:-1]

    @property
    def is_done(self) -> bool:
        """Whether what was waited for came."""
        return self.end is End.DONE or (self.end is End.HALTED and (self.test.end == "halt" or bool(self.test.script)))

    @property
    def unreached(self) -> tuple[int, int]:
        """The line of the play that waited in vain, and for how many steps."""
        match = UNREACHED.search(self.said)
        return (int(match[1]), int(match[2])) if match else (0, 0)

    @property
    def steps(self) -> int:
        """The steps of the run from the boot on; 0 if it printed too much."""
        if self.end is End.CUT:
            return 0
        if self.recorded is None and self.looked:
            return int(self.looked.report.get("steps", 0))
        return sum(map(int, re.findall(r"^step (\d+)$", self.script, re.MULTILINE)))

    @property
    def ticks(self) -> int:
        """The ticks from the first event of the test's programs to their last end. It takes a trace."""
        ends = [end.at for end in self.trace.own_exits()]
        return self.ticks_until(max(ends)) - self.ticks_until(self.trace.begin) if ends else 0

    def ticks_until(self, event: int) -> int:
        """The ticks among the first events of the script."""
        at = ticks = 0
        for word, value in re.findall(r"^(step|tick|keys) (\w+)$", self.script, re.MULTILINE):
            length = len(value) // 2 if word == "keys" else int(value)
            length = min(length, event - at)
            at += length
            ticks += length if word == "tick" else 0
            if at == event:
                break
        return ticks

    @property
    def saved(self) -> Optional[pathlib.Path]:
        """The image at the end of the run, if it is there."""
        if self.play and not self.kept:
            self.runner.save(self)
        return self.kept if self.kept and self.kept.is_file() else None

    def file(self, path: str) -> Optional[bytes]:
        """A file at the end of the run, if it is there."""
        if not self.saved:
            return None
        if self.files is None:
            self.files = self.runner.files_of(self.saved)
        if path not in self.files:
            done = self.runner.engine.call("get", self.saved, path, most=TRACE_LIMIT)
            self.files[path] = None if done.status else done.output
        return self.files[path]

    def xv6(self, *words: Word) -> Done:
        """Calls the program; names of files may be those of the run: `run.image`, `run.saved`."""
        return self.runner.engine.call(*words)

    @property
    def folder(self) -> pathlib.Path:
        """The submission."""
        return self.runner.folder


def shared_runs(tests: Iterable[Test]) -> dict[tuple[object, Schedule], Depth]:
    """The runs that several tests have, with the closest look that one of them takes."""
    counts: Counter[tuple[object, Schedule]] = Counter()
    depths: dict[tuple[object, Schedule], Depth] = {}
    for test in tests:
        for run in ((test.same, schedule) for schedule in test.machine.schedules):
            counts[run] += 1
            depths[run] = max(test.depth, depths.get(run, Depth.REPORT))
    return {run: depth for run, depth in depths.items() if counts[run] > 1}


@dataclass
class Runner:
    """Runs the tests of a submission."""

    engine: Engine
    images: Images
    folder: pathlib.Path
    seed: str
    shared: Mapping[tuple[object, Schedule], Depth] = field(default_factory=dict)
    done: dict[tuple[object, Schedule], Run] = field(default_factory=dict)
    last: bytes = b""
    files: dict[str, Optional[bytes]] = field(default_factory=dict)

    def prepare(self, test: Test) -> tuple[Values, pathlib.Path]:
        """A test's values and image."""
        values = Values.of(test, self.seed)
        files = values.fill_files(test.files)
        if test.make:
            files.update(call_function(test.make, values))
        return values, self.images.image(test.programs, files)

    def run(self, test: Test, schedule: Schedule, values: Values, image: pathlib.Path, looks: bool) -> Run:
        """A run, which is looked at where that is wanted and it doesn't take too many steps for it."""
        name = (test.same, schedule)
        if name in self.done:
            return dataclasses.replace(self.done[name], test=test, values=values)
        run = Run(test, schedule, values, self, image)
        if test.runs:
            run.play = self.script_of(test) if test.script else play_of(test, schedule, values)
            depth = self.shared.get(name, max(test.depth, Depth.REPORT if looks else Depth.CONSOLE))
            if depth is Depth.CONSOLE or not self.run_looked_at(run, depth):
                self.run_alone(run)
            run.output = run.console if test.play or test.script else self.last_output(run)
        if name in self.shared and run.end is End.DONE and run.looked and len(run.looked.trace.calls) < SHARED_CALLS:
            self.done[name] = run
        return run

    def run_looked_at(self, run: Run, depth: Depth) -> bool:
        """Does a run and looks at it, which takes much longer a step: so it is given up after LOOKED_STEPS."""
        play = capped(run.play, LOOKED_STEPS)
        done, look = self.boot_looked_at(run, play, depth, run.test.wants_files)
        run.looked = look
        run.end, run.said = end_of(done)
        run.console = done.output.decode("latin-1")
        return run.end is not End.UNREACHED or play == run.play

    def run_alone(self, run: Run) -> None:
        """Does a run that nobody looks at."""
        done = self.boot(run, ["play", "--script", self.engine.path("script")], run.play, run.test.wants_files)
        run.console = done.output.decode("latin-1")
        run.end, run.said = end_of(done)
        run.recorded = self.taken("script").decode()
        if run.end is not End.UNREACHED:
            run.looked = None  # it was given up

    def boot(self, run: Run, words: Sequence[Word], play: str, keeps: bool = False) -> Done:
        """Boots the image of a run and gives it a play; keeps the image that it leaves, if that is wanted."""
        saves: list[Word] = []
        if keeps:
            run.kept, run.files = self.engine.scratch / "saved.img", None
            run.kept.unlink(missing_ok=True)
            saves = ["--save", run.kept]
        frames = ["--frames", str(run.test.machine.frames)]
        return self.engine.call(*words, *frames, *saves, run.image, self.file("play", play))

    def boot_looked_at(self, run: Run, play: str, depth: Depth, keeps: bool = False) -> tuple[Done, Look]:
        """The same, with a report, and with a trace if one is wanted: of all calls, or of those that say whose child
        a process is and what it executes."""
        path, is_traced = self.engine.path, depth > Depth.REPORT
        report = ["--json", path("report")]
        calls = [] if depth is Depth.CALLS else ["--calls", "fork,exec,wait"]
        trace = ["--play", "--text", os.devnull, "--bytes", "64", *calls, "--jsonl", path("events")]
        done = self.boot(run, ["trace", *trace, *report] if is_traced else ["play", *report], play, keeps)
        told, is_whole = self.taken("report"), is_traced and not done.is_cut
        return done, Look(json.loads(told or b"{}"), self.read_trace(run.test) if is_whole else Trace(), depth)

    def look(self, run: Run, depth: Depth) -> Look:
        """Does what a run did once more, and looks at it. Of one that used up its steps it is another, that ends."""
        return self.boot_looked_at(run, cut_short(run), depth)[1] if run.play else Look({}, Trace(), depth)

    def save(self, run: Run) -> None:
        """Does what a run did once more, and keeps its image."""
        self.boot(run, ["play"], run.play, keeps=True)

    def files_of(self, image: pathlib.Path) -> dict[str, Optional[bytes]]:
        """The files that are known of an image: the last one's, if it is the same."""
        data = image.read_bytes()
        if data != self.last:
            self.last, self.files = data, {}
        return self.files

    def record(self, run: Run) -> str:
        """The script of a run. Of one that used up its steps or printed without end it is that of a shorter one."""
        if run.test.script:
            return run.play
        self.boot(run, ["play", "--script", self.engine.path("script")], cut_short(run))
        return self.taken("script").decode()

    def file(self, name: str, text: str) -> str:
        path = self.engine.path(name)
        with open(path, "w", encoding="latin-1") as out:
            out.write(text)
        return path

    def taken(self, name: str) -> bytes:
        """What a run left in a file, which is gone then."""
        path = self.engine.path(name)
        try:
            with open(path, "rb") as file:
                data = file.read()
        except FileNotFoundError:
            return b""
        os.unlink(path)
        return data

    def read_trace(self, test: Test) -> Trace:
        path = self.engine.path("events")
        if not os.path.isfile(path):
            return Trace()
        if os.path.getsize(path) > TRACE_LIMIT:
            raise CannotRun(f"its processes make too many calls to be looked at: more than {TRACE_LIMIT} bytes")
        with open(path, encoding="utf-8") as lines:
            trace = TraceReader(test.programs).read(lines)
        os.unlink(path)
        return trace

    def script_of(self, test: Test) -> str:
        """The submission's own script, whose steps are bounded."""
        path = self.folder / (test.script or "")
        if not is_plain(path):
            raise CannotRun(f"{test.script} is missing")
        text = path.read_bytes()[:CONSOLE_LIMIT].decode("latin-1")
        steps = 0
        for number, line in enumerate(text.split("\n"), 1):
            match = re.fullmatch(r"step (\d{1,10})|tick (\d{1,5})|keys (?:[0-9a-fA-F]{2})*|type [ -~]*|", line.rstrip())
            if not match:
                raise CannotRun(
                    f"{test.script}:{number}: {printable(line)[:40]}: step N, tick N, keys HEX or type TEXT is wanted"
                )
            steps += int(match[1] or 0)
        if steps > test.machine.steps:
            raise CannotRun(f"{test.script}: it takes {steps} steps, and {test.machine.steps} are the most")
        return text

    def last_output(self, run: Run) -> str:
        """What was printed after the last typed line. If programs print such a line, another run says where it is."""
        echo = run.values.fill(run.test.typed[-1]) + "\n"
        if run.console.count(echo) == 1:
            begin = run.console.index(echo)
        else:
            begin = self.begin_of_last(run, echo)
        return run.console[begin + len(echo) :].removesuffix("$ ") if begin >= 0 else ""

    def begin_of_last(self, run: Run, echo: str) -> int:
        typed = run.play.rfind("\ntype ")
        done = self.boot(run, ["play"], run.play[: typed + 1])
        return run.console.find(echo, len(done.output)) if end_of(done)[0] is End.DONE else -1


def capped(play: str, steps: int) -> str:
    """A play with at most that many steps a wait."""
    return re.sub(
        r"^(until \w+) (\d+)$", lambda wait: f"{wait[1]} {min(int(wait[2]), steps)}", play, flags=re.MULTILINE
    )


def cut_short(run: Run) -> str:
    """The play of a run. If it used up its steps or printed too much, it is a shorter one."""
    if run.end is End.CUT:
        return capped(run.play, SCRIPT_STEPS)
    if run.end is End.UNREACHED and not run.test.script:
        lines = run.play.split("\n")[: run.unreached[0] - 1]
        return "\n".join([*lines, f"until idle {min(run.test.machine.steps, EXPLAINED_STEPS)}"]) + "\n"
    return run.play


def end_of(done: Done) -> tuple[End, str]:
    """How a run ended, and the last line that the program printed."""
    said = done.error.rstrip("\n").rsplit("\n", 1)[-1]
    if done.is_cut:
        return End.CUT, said
    if said == "running":
        return End.DONE, said
    if said.startswith("halt 1 "):
        return End.HALTED, said
    if UNREACHED.search(said):
        return End.UNREACHED, said
    if done.status < 0:
        raise CannotRun(f"the run took more of the host than it may (signal {-done.status})")
    raise CannotRun(said)


def call_function(function: Callable[..., Any], *arguments: Any) -> Any:
    """Calls a function of the rubric."""
    try:
        return function(*arguments)
    except Exception as error:
        raise CannotRun(f"the rubric's function {function.__name__} failed: {type(error).__name__}: {error}") from error


def play_of(test: Test, schedule: Schedule, values: Values) -> str:
    """A test as a play."""
    if test.play:
        return (schedule.line + "\n" if schedule.line else "") + values.fill(test.play.read_text())
    lines = [waits("prompt", BOOT_STEPS)] + ([schedule.line] if schedule.line else [])
    for index, typed in enumerate(test.typed):
        lines.append(f"type {values.fill(typed)}")
        if index + 1 < len(test.typed):
            lines.append(waits("prompt", test.machine.steps))
    if test.keys:
        lines.append(f"keys {test.keys.hex()}")
    return "\n".join([*lines, waits(test.end, test.machine.steps)]) + "\n"


def waits(end: str, steps: int) -> str:
    return f"until {end} {steps}"


def is_plain(path: pathlib.Path) -> bool:
    """Whether that is a file of its own: no link to what isn't the submission's."""
    return path.is_file() and not path.is_symlink()


def printable(text: str) -> str:
    """A text in which each byte that can't be printed is \\x and two digits."""
    return "".join(char if " " <= char <= "~" or char == "\t" else f"\\x{ord(char):02x}" for char in text)


# ---- judging


class Outcome(enum.Enum):
    PASSED = "passed"
    FAILED = "failed"
    ERROR = "error"


@dataclass
class Verdict:
    """What is good and bad of the lines that a run printed, what is missing, and what else is wrong."""

    good: set[int] = field(default_factory=set)
    bad: set[int] = field(default_factory=set)
    missing: list[str] = field(default_factory=list)
    said: list[str] = field(default_factory=list)

    @property
    def has_failed(self) -> bool:
        return bool(self.bad or self.missing or self.said)


def judge(run: Run, looks: bool) -> Verdict:
    """Compares a run with what its test wants: what it printed and left, and if that is right, what it did."""
    verdict = Verdict()
    if run.test.runs:
        judge_end(run, verdict)
        judge_output(run, verdict)
        judge_patterns(run, verdict)
    if not verdict.said:
        judge_files(run, verdict)
    if not verdict.has_failed:
        judge_processes(run, looks, verdict)
        judge_check(run, verdict)
    return verdict


def judge_end(run: Run, verdict: Verdict) -> None:
    if run.end is End.CUT:
        verdict.said.append(f"it printed more than {CONSOLE_LIMIT} bytes, so the run was ended")
    elif run.end is End.HALTED and not run.is_done:
        verdict.said.append(f"process 1 ended with status {run.said.split()[-1]}, so the machine stopped")
    elif run.end is End.UNREACHED:
        is_idle = "nobody is ready" in run.said
        verdict.said.append(f"{'no process can go on' if is_idle else 'still running'} after {run.unreached[1]} steps")


def who(process: Table) -> str:
    return f"pid {process['pid']} ({base_name(process['program'])})"


def waiting(report: Table) -> list[str]:
    """What each process beside the first does, in sentences."""
    processes = {process["pid"]: process for process in report.get("processes", [])}
    sentences = [waiting_of(process, processes) for pid, process in processes.items() if pid > 1]
    more = len(sentences) - WAITING_SHOWN
    return sentences[:WAITING_SHOWN] + ([f"and {more} more"] if more > 0 else [])


def holders_of(process: Table, processes: Mapping[int, Table]) -> str:
    """Who can end what a process waits for: itself first, and three others at most."""
    pids = sorted(process["waits"]["pids"], key=lambda pid: bool(pid != process["pid"]))
    names = [f"pid {pid}" if pid not in processes else who(processes[pid]) for pid in pids]
    if process["pid"] in pids:
        names[0] = "it itself"
    return " and ".join(names[:4] + ([f"{len(names) - 4} more"] if len(names) > 4 else [])) or "nobody"


def waiting_of(process: Table, processes: Mapping[int, Table]) -> str:
    state, waits = process["state"], process["waits"]
    if state == "ended":
        return f"{who(process)} has ended with status {process['status']}, and nobody has waited for it"
    if waits is None:
        return f"{who(process)} {'runs' if state == 'running' else 'is ready to run'}"
    holders = holders_of(process, processes)
    verb = "holds" if len(waits["pids"]) < 2 else "hold"
    words = {
        "child": f"waits for a child: {holders}",
        "console": "reads the console",
        "bytes": f"reads a pipe whose write end {holders} {verb}",
        "room": f"writes to a full pipe whose read end {holders} {verb}",
        "tick": f"sleeps until tick {waits['tick']}",
    }
    return f"{who(process)} {words.get(waits['kind'], 'waits')}"


def judge_faults(run: Run, verdict: Verdict) -> None:
    wanted, faults = run.test.faults, run.report.get("faults", [])
    count = len(faults) + run.report.get("more_faults", 0)
    if wanted is None or count == wanted:
        return
    verdict.said += [f"fault of {who(fault)}: {fault['words']}" for fault in faults[:5]]
    if wanted:
        verdict.said.append(f"faults: {count}, not {wanted}")


def judge_output(run: Run, verdict: Verdict) -> None:
    test, lines = run.test, run.lines
    if test.output is not None:
        judge_text(run.values.fill(test.output), run.output, verdict)
    if test.lines is not None:
        wanted = Counter(run.values.fill_all(test.lines))
        for index, line in enumerate(lines):
            (verdict.good if wanted[line] > 0 else verdict.bad).add(index)
            wanted[line] -= 1
        verdict.missing += [repr(line) for line, count in wanted.items() for _ in range(count)]
    at = 0
    for line in run.values.fill_all(test.order):
        found = next((index for index in range(at, len(lines)) if lines[index] == line), None)
        if found is None:
            verdict.missing.append(repr(line) + (" (in this order)" if line in lines else ""))
        else:
            verdict.good.add(found)
            at = found + 1


def judge_text(wanted: str, printed: str, verdict: Verdict) -> None:
    """The first line that differs."""
    if wanted == printed:
        return
    wants, lines = wanted.split("\n"), printed.split("\n")
    index = next(
        (index for index, (one, other) in enumerate(zip(wants, lines)) if one != other), min(len(wants), len(lines))
    )
    if index < len(lines) and (lines[index] or index + 1 < len(lines)):
        verdict.bad.add(index)
    if index < len(wants) and (wants[index] or index + 1 < len(wants)):
        verdict.missing.append(f"{wants[index]!r} as line {index + 1}")
    if not verdict.bad and not verdict.missing:
        verdict.said.append(
            "the last line has a line end, and should have none"
            if printed.endswith("\n")
            else "the last line has no line end"
        )


def matches(pattern: str, line: str) -> bool:
    return re.search(pattern, line[:LINE_LIMIT]) is not None


def judge_patterns(run: Run, verdict: Verdict) -> None:
    lines, fill = run.lines, run.values.fill
    for pattern in run.values.fill_all(run.test.match):
        hits = {index for index, line in enumerate(lines) if matches(pattern, line)}
        verdict.good |= hits
        if not hits:
            verdict.missing.append(repr(pattern))
    at = 0
    for pattern in map(fill, run.test.match_order):
        found = next((index for index in range(at, len(lines)) if matches(pattern, lines[index])), None)
        if found is None:
            verdict.missing.append(
                repr(pattern) + (" (in this order)" if any(matches(pattern, line) for line in lines) else "")
            )
        else:
            verdict.good.add(found)
            at = found + 1
    for pattern in map(fill, run.test.never):
        verdict.bad |= {index for index, line in enumerate(lines) if matches(pattern, line)}


def judge_processes(run: Run, looks: bool, verdict: Verdict) -> None:
    """What report and trace show: faults, statuses, and what else processes did."""
    if run.test.runs and looks:
        judge_faults(run, verdict)
        for name, status in run.test.status.items():
            judge_status(
                name, status, [end for end in run.report["ended"] if base_name(end["program"]) == name], verdict
            )
    if run.test.depth > Depth.REPORT:
        judge_trace(run, run.look(run.test.depth).trace, verdict)


def judge_trace(run: Run, trace: Trace, verdict: Verdict) -> None:
    """Ticks, descriptors, children and calls."""
    if run.test.ticks and not run.test.ticks[0] <= run.ticks <= run.test.ticks[1]:
        verdict.said.append(f"it took {run.ticks} ticks; {run.test.ticks[0]} to {run.test.ticks[1]} are right")
    for end in trace.exits:
        judge_exit(run.test, end, end.pid in trace.own, verdict)
    made = Counter(call.name for call in trace.own_calls()) + Counter(exit=len(trace.own_exits()))
    for name, least in run.test.calls.items():
        if made[name] < least:
            verdict.said.append(f"calls of {name}: {made[name]}, and at least {least} are wanted")
    verdict.said += [f"calls of {name}: {made[name]}, and none is wanted" for name in run.test.no_calls if made[name]]


def judge_status(name: str, status: int, ends: Sequence[Table], verdict: Verdict) -> None:
    """The statuses of a program's processes."""
    if not ends:
        verdict.said.append(f"no process of {name} has ended")
    wrong = [end for end in ends if end["status"] != status]
    verdict.said += [f"pid {end['pid']} ({name}) ended with status {end['status']}, not {status}" for end in wrong[:5]]


def judge_exit(test: Test, end: Exit, is_own: bool, verdict: Verdict) -> None:
    """What a process left open, and whom it left alone."""
    left = [descriptor for descriptor in end.open if descriptor > 2]
    if len(left) > test.open_at_exit.get(end.program, 16):
        most = test.open_at_exit[end.program]
        verdict.said.append(
            f"pid {end.pid} ({end.program}) ended with open descriptors {', '.join(map(str, left))}; "
            f"{most} above 2 may be open"
        )
    if is_own and end.unwaited and not test.unwaited:
        pids = " and ".join(f"pid {pid}" for pid in end.unwaited[:8])
        verdict.said.append(f"pid {end.pid} ({end.program}) ended without waiting for its child {pids}")


def judge_files(run: Run, verdict: Verdict) -> None:
    for path, content in run.values.fill_files(run.test.left).items():
        found = run.file(path)
        if content is False and found is not None:
            verdict.said.append(f"{path} is left, and should not be")
        elif content is not False and found is None:
            verdict.said.append(f"{path} is missing at the end")
        elif isinstance(content, (str, bytes)) and found is not None:
            wanted = content.encode("latin-1") if isinstance(content, str) else content
            verdict.said += [] if found == wanted else [difference(path, wanted, found)]


def difference(path: str, wanted: bytes, found: bytes) -> str:
    index = next(
        (index for index, (one, other) in enumerate(zip(wanted, found)) if one != other), min(len(wanted), len(found))
    )
    parts = [printable(data[max(index - 10, 0) : index + 20].decode("latin-1")) for data in (found, wanted)]
    has, wants = (f"{len(data)} bytes, there '{text}'" for data, text in zip((found, wanted), parts))
    return f"{path} differs from byte {index} on: it has {has}, and should have {wants}"


def judge_check(run: Run, verdict: Verdict) -> None:
    if run.test.check:
        why = call_function(run.test.check, run)
        if why is not None:
            verdict.said.append(str(why))


def shown(verdict: Verdict, lines: Sequence[str]) -> list[str]:
    """The first good and bad lines with two around each, as xv6's own grader shows them; else the last ones."""
    marked = set(sorted(verdict.bad)[:SHOWN_MARKS]) | set(sorted(verdict.good)[:SHOWN_MARKS])
    at = {index + offset for index in marked for offset in range(-2, 3)}
    if verdict.missing or not marked:
        at |= set(range(len(lines) - 5, len(lines)))
    text, last = [], -1
    for index in sorted(index for index in at if 0 <= index < len(lines)):
        if index != last + 1:
            text.append("    ...")
        mark = "BAD " if index in verdict.bad else "GOOD" if index in verdict.good else "    "
        text.append(f"{mark} {printable(lines[index])[:LINE_LIMIT]}")
        last = index
    return text + ["    ..."] * (last != len(lines) - 1 and bool(lines))


# ---- results


@dataclass
class Result:
    """What became of a test."""

    test: Test
    outcome: Outcome
    points: int = 0
    words: list[str] = field(default_factory=list)
    console: str = ""
    script: str = ""
    steps: int = 0
    runs: int = 0
    failed: int = 0
    seconds: float = 0.0
    run: Optional[Run] = None

    @property
    def text(self) -> str:
        return "\n".join(self.words)


@dataclass
class Grading:
    """The results of a submission."""

    rubric: Rubric
    folder: pathlib.Path
    seed: str
    version: str
    results: list[Result]
    image_hash: str

    @property
    def score(self) -> int:
        return sum(result.points for result in self.results)

    @property
    def most(self) -> int:
        return sum(result.test.points for result in self.results)

    @property
    def has_passed(self) -> bool:
        return all(result.outcome is Outcome.PASSED for result in self.results)

    @property
    def checked_by(self) -> str:
        sums = f"rubric {self.rubric.hash}, image {self.image_hash}"
        return f"Checked by xv6 {self.version}, {sums}, seed {printable(self.seed)}"


CONTROL = re.compile(r"[\x00-\x08\x0b-\x1f\x7f-\x9f\ud800-\udfff\ufffe\uffff]")


def cut(text: str) -> str:
    """A text up to what a result holds, and without what XML can't hold; it says so if it is longer."""
    text = CONTROL.sub(lambda match: f"\\x{ord(match[0]):02x}", text)
    return text if len(text) <= SHOWN_LIMIT else text[:SHOWN_LIMIT] + f"\n(cut after {SHOWN_LIMIT} characters)"


def cut_console(console: str) -> str:
    return cut("\n".join(map(printable, console.split("\n"))))


def points_of(test: Test, steps: int) -> int:
    """A test's points by the steps that it took."""
    if not test.most_steps or steps <= test.most_steps[0]:
        return test.points
    full, none = test.most_steps
    return max(none - steps, 0) * test.points // max(none - full, 1)


def grade_test(runner: Runner, test: Test) -> Result:
    """Runs a test under each of its schedules. After one that doesn't come to its end no other is tried."""
    begin = time.monotonic()
    result = Result(test, Outcome.PASSED)
    try:
        run_schedules(runner, test, result)
    except CannotRun as error:
        result.outcome, result.words = Outcome.ERROR, [str(error)]
    result.points = points_of(test, result.steps) if result.outcome is Outcome.PASSED else 0
    if result.outcome is Outcome.PASSED and result.points < test.points:
        result.words = [
            f"    it took {result.steps} steps; {test.most_steps[0] if test.most_steps else 0} are worth all points"
        ]
    result.seconds = time.monotonic() - begin
    return result


def run_schedules(runner: Runner, test: Test, result: Result) -> None:
    """Runs a test: the first time it is looked at, and each time if the test says something of its processes."""
    refuse_missing(runner, test)
    values, image = runner.prepare(test)
    for schedule in test.machine.schedules if test.typed or test.play else test.machine.schedules[:1]:
        looks = result.runs == 0 or test.depth > Depth.CONSOLE
        run = runner.run(test, schedule, values, image, looks)
        verdict = judge(run, looks)
        result.runs += 1
        result.steps = max(result.steps, run.steps)
        result.console = result.console or run.console
        if verdict.has_failed:
            result.failed += 1
            if result.failed == 1:
                fail(result, run, verdict)
            if not run.is_done:
                break
    if result.failed and result.runs > 1:
        first = result.run.schedule.name if result.run else ""
        result.words.append(f"    Under {result.failed} of {result.runs} schedules; the first: {first}.")


def first_lines(console: str) -> list[str]:
    """How the console of a run begins that printed too much."""
    lines = console[: SHOWN_MARKS * LINE_LIMIT].split("\n")[: 2 * SHOWN_MARKS]
    return [f"     {printable(line)[:WIDTH]}" for line in lines] + ["    ..."]


def refuse_missing(runner: Runner, test: Test) -> None:
    """A program that the test needs is not there, or is a link."""
    for name in test.programs:
        if name not in runner.images.programs:
            is_there = os.path.lexists(runner.folder / name)
            raise CannotRun(
                f"{name}: {'it is no file of its own' if is_there else 'there is no such program in the folder'}"
            )


def fail(result: Result, run: Run, verdict: Verdict) -> None:
    """Notes the first run that failed, with what its processes do if it has not come to its end."""
    result.outcome, result.run, result.script, result.console = Outcome.FAILED, run, run.script, run.console
    faults = Verdict()
    judge_faults(run, faults)
    waits = waiting(run.report) if run.end is End.UNREACHED else []
    words = verdict.said + [text for text in faults.said if text not in verdict.said] + waits
    result.words = [f"     $ {printable(line)}" for line in run.values.fill_all(run.test.typed[-1:])]
    result.words += first_lines(run.console) if run.end is End.CUT else shown(verdict, run.lines)
    result.words += [f"    MISSING {printable(text)}" for text in verdict.missing[:SHOWN_MARKS]] + [
        f"    {printable(text)}" for text in words
    ]
    if run.test.hint:
        result.words.append(f"    Hint: {run.test.hint}")


def grade(
    rubric: Rubric, folder: pathlib.Path, seed: str, program: str, tests: Sequence[Test], keeper: "Keeper"
) -> Grading:
    """Grades a submission."""
    programs = {name: (folder / name).resolve() for name in rubric.programs if is_plain(folder / name)}
    base = read_manifest(rubric.machine.manifest)
    with tempfile.TemporaryDirectory(prefix="grade-") as scratch:
        engine = Engine(program, pathlib.Path(scratch))
        runner = Runner(engine, Images(engine, rubric.machine, base, programs), folder, seed, shared_runs(tests))
        grading = Grading(rubric, folder, seed, engine.version(), [], "")
        for number, test in enumerate(tests, 1):
            result = grade_test(runner, test)
            grading.results.append(result)
            keeper.note(number, runner, result)
        forfeit_parts(grading.results)
        grading.image_hash = hash_of(sorted(runner.images.made.values()))
    return grading


def hash_of(files: Iterable[pathlib.Path]) -> str:
    total = hashlib.sha256()
    for file in files:
        total.update(file.read_bytes())
    return total.hexdigest()


def forfeit_parts(results: Sequence[Result]) -> None:
    """A part of which a needed test failed gives no points."""
    lost = {result.test.part for result in results if result.test.needed and result.outcome is not Outcome.PASSED}
    for result in results:
        if result.test.part in lost and result.points:
            result.points = 0
            result.words.append(f"    No points: a test of the part {result.test.part} that is needed failed.")


@dataclass
class Keeper:
    """What is kept of a test that failed while its folder is there: its image, its script, and pages."""

    keep: Optional[pathlib.Path]
    pages: Optional[pathlib.Path]
    machine: Optional[str]
    shows_hidden: bool
    sections: list[str] = field(default_factory=list)

    def note(self, number: int, runner: Runner, result: Result) -> None:
        """Called after each test."""
        run = result.run
        if run and run.play and self.keep:
            self.write_run(self.keep, number, run)
        if self.pages:
            is_shown = self.shows_hidden or not result.test.hidden
            links = self.write_run(self.pages, number, run) if run and run.play and is_shown else []
            self.sections.append(section(number, result, links, is_shown))

    def write_run(self, folder: pathlib.Path, number: int, run: Run) -> list[str]:
        """Writes image, script and page of a run, and returns their names."""
        folder.mkdir(parents=True, exist_ok=True)
        script = run.script if run.end in (End.DONE, End.HALTED) else run.runner.record(run)
        shutil.copyfile(run.image, folder / f"{number}.img")
        (folder / f"{number}.script").write_text(script)
        if not self.machine:
            return [f"{number}.img", f"{number}.script"]
        page = machine_page(self.machine, run.image.read_bytes(), run.test.machine.frames, script)
        (folder / f"{number}.html").write_text(page, encoding="utf-8")
        return [f"{number}.img", f"{number}.script", f"{number}.html"]

    def finish(self, grading: Grading) -> None:
        """Writes the overview."""
        if self.pages:
            self.pages.mkdir(parents=True, exist_ok=True)
            (self.pages / "index.html").write_text(overview(grading, self.sections), encoding="utf-8")


# ---- pages


def mark_of(image: bytes) -> int:
    """The sum by which a link of the page names its image (FNV-1a), with a run of zeros at once."""
    mark = 0x811C9DC5
    for part in re.finditer(rb"\0+|[^\0]+", image):
        if part[0][0] == 0:
            mark = mark * pow(0x01000193, len(part[0]), 1 << 32) & 0xFFFFFFFF
        else:
            for byte in part[0]:
                mark = (mark ^ byte) * 0x01000193 & 0xFFFFFFFF
    return mark


def fragment(image: bytes, frames: int, script: str) -> str:
    """The part of a link that has a session: the image's mark, frames and script."""
    pack = zlib.compressobj(9, wbits=-15)
    data = pack.compress(f"boot {mark_of(image):08x} {frames}\n{script}".encode()) + pack.flush()
    return "#session=" + base64.urlsafe_b64encode(data).decode().rstrip("=")


def machine_page(page: str, image: bytes, frames: int, script: str) -> str:
    """The machine's page with another image, which replays a script as it opens."""
    packed = base64.b64encode(gzip.compress(image, 9, mtime=0)).decode()
    page = re.sub(r'(id="packed-image">)[^<]*', lambda match: match[1] + packed, page, count=1)
    start = f'<script>if (!location.hash) location.hash = "{fragment(image, frames, script)}";</script>\n'
    return page.replace("</head>", start + "</head>", 1)


STYLE = """body { font: 16px/1.5 sans-serif; max-width: 60em; margin: 2em auto; padding: 0 1em; }
pre { background: #f4f4f4; color: #111; padding: .7em; overflow-x: auto; }
table { border-collapse: collapse; } td, th { border: 1px solid #999; padding: .2em .6em; text-align: left; }
.passed { color: #060; } .failed, .error { color: #a00; }"""


def section(number: int, result: Result, links: Sequence[str], is_shown: bool) -> str:
    """A test as a part of the overview."""
    test = result.test
    name = test.name if is_shown else "a hidden test"
    points = f"{result.points} of {test.points} points"
    outcome = result.outcome.value
    head = f'<h2 id="test-{number}" class="{outcome}">{html.escape(name)}: {outcome}, {points}</h2>'
    if result.outcome is Outcome.PASSED or not is_shown:
        return head + "\n"
    parts = [head, f"<pre>{html.escape(cut(result.text))}</pre>"]
    if result.run and result.run.play:
        parts += last_calls(result.run.look(Depth.CALLS))
    parts += [f'<p><a href="{link}">{link}</a>: {LINKS[link.rsplit(".", 1)[1]]}</p>' for link in reversed(links)]
    return "\n".join(parts) + "\n"


LINKS = {
    "html": "the machine at this failure, where one can go on, step by step, and back",
    "script": "what happened, event by event",
    "img": "the disk image: <code>xv6 trace IMAGE SCRIPT</code> prints each call",
}


def last_calls(look: Look) -> list[str]:
    """The last calls of each process, and what each waits for."""
    names: dict[int, str] = {}
    calls: dict[int, list[str]] = {}
    for call in look.trace.calls:
        names[call.pid] = call.program
        calls.setdefault(call.pid, []).append(printable(str(call)))
    for end in look.trace.exits:
        names[end.pid] = end.program
        calls.setdefault(end.pid, []).append(f"ended ({end.how}) with {end.status}")
    shown_pids = [pid for pid in sorted(calls) if pid > 1][:PROCESSES_SHOWN]
    rows = [
        f"<tr><td>{pid}</td><td>{html.escape(printable(names[pid]))}</td>"
        f"<td><pre>{html.escape(chr(10).join(calls[pid][-CALLS_SHOWN:]))}</pre></td></tr>"
        for pid in shown_pids
    ]
    table = f"<table><tr><th>pid</th><th>program</th><th>its last calls</th></tr>{''.join(rows)}</table>"
    waits = "".join(f"<li>{html.escape(printable(text))}</li>" for text in waiting(look.report))
    return [table, f"<p>At the end:</p><ul>{waits}</ul>" if waits else ""]


def overview(grading: Grading, sections: Sequence[str]) -> str:
    """The page of a submission."""
    title = html.escape(f"{grading.rubric.title}: {printable(grading.folder.name)}")
    return (
        '<!doctype html>\n<html lang="en">\n<head>\n<meta charset="utf-8">\n'
        f"<title>{title}</title>\n<style>\n{STYLE}\n</style>\n</head>\n<body>\n<h1>{title}</h1>\n"
        f"<p>Score: {grading.score} of {grading.most}</p>\n{''.join(sections)}"
        f"<p>{html.escape(grading.checked_by)}</p>\n</body>\n</html>\n"
    )


# ---- forms of results


@dataclass(frozen=True)
class Colours:
    """Marks of a terminal's colours, or none."""

    is_on: bool

    def mark(self, code: int, text: str) -> str:
        return f"\x1b[{code}m{text}\x1b[0m" if self.is_on else text


def own_form(grading: Grading, colours: Colours) -> Iterator[str]:
    """The lines of xv6's own grader."""
    for result in grading.results:
        name = result.test.name
        word = colours.mark(32, "OK") if result.outcome is Outcome.PASSED else colours.mark(31, "FAIL")
        yield f"== Test {name} == {name}: {word} ({result.seconds * 1000:.0f} ms, {result.steps} steps)"
        for line in result.words:
            yield f"    {line}" if result.outcome is Outcome.ERROR else line
    yield f"Score: {grading.score}/{grading.most}"
    yield grading.checked_by


def gradescope_test(number: int, result: Result) -> Table:
    test = result.test
    return {
        "name": test.name,
        "number": str(number),
        "score": result.points,
        "max_score": test.points,
        "status": "passed" if result.outcome is Outcome.PASSED else "failed",
        "output": cut(result.text),
        "output_format": "text",
        "visibility": "after_published" if test.hidden else "visible",
        "tags": [test.part] if test.part else [],
        "extra_data": {
            "outcome": result.outcome.value,
            "steps": result.steps,
            "schedules": result.runs,
            "failed_schedules": result.failed,
            "seconds": round(result.seconds, 3),
            "console": cut_console(result.console),
            "script": result.script[:SHOWN_LIMIT],
        },
    }


def gradescope(grading: Grading) -> Table:
    """What Gradescope reads, with all that there is to say of each test in its `extra_data`."""
    return {
        "score": grading.score,
        "max_score": grading.most,
        "execution_time": round(sum(result.seconds for result in grading.results)),
        "output_format": "text",
        "output": f"{grading.rubric.title}\n{grading.checked_by}",
        "visibility": "visible",
        "stdout_visibility": "visible",
        "tests": [gradescope_test(number, result) for number, result in enumerate(grading.results, 1)],
        "extra_data": {
            "submission": printable(grading.folder.name),
            "seed": printable(grading.seed),
            "rubric": grading.rubric.hash,
            "image": grading.image_hash,
            "version": grading.version,
        },
    }


def quoted(text: str) -> str:
    """A text as an attribute's value of XML or HTML, in which no control character may be."""
    return '"' + html.escape(CONTROL.sub("?", text.replace("\n", " "))) + '"'


def junit_case(result: Result) -> str:
    names = f"classname={quoted(result.test.part or 'lab')} name={quoted(result.test.name)}"
    head = f'<testcase {names} time="{result.seconds:.3f}"'
    if result.outcome is Outcome.PASSED:
        return f"{head}/>"
    kind = "failure" if result.outcome is Outcome.FAILED else "error"
    first = next(
        (word.strip() for word in result.words if "MISSING" in word or word.startswith("BAD")),
        result.words[-1].strip() if result.words else "",
    )
    return f"{head}><{kind} message={quoted(printable(first))}>{html.escape(cut(result.text))}</{kind}></testcase>"


def junit(grading: Grading) -> str:
    """The XML that GitHub, GitLab and Jenkins read."""
    counts = Counter(result.outcome for result in grading.results)
    seconds = sum(result.seconds for result in grading.results)
    cases = "\n".join(map(junit_case, grading.results))
    return (
        '<?xml version="1.0" encoding="utf-8"?>\n'
        f"<testsuites><testsuite name={quoted(grading.rubric.title)} tests=\"{len(grading.results)}\" "
        f'failures="{counts[Outcome.FAILED]}" errors="{counts[Outcome.ERROR]}" time="{seconds:.3f}">\n'
        f"{cases}\n</testsuite></testsuites>\n"
    )


def write_whole(name: str, text: str) -> None:
    """Writes a file under another name and renames it, so that it is there whole or not at all."""
    part = f"{name}.part-{os.getpid()}"
    pathlib.Path(part).write_text(text, encoding="utf-8")
    os.replace(part, name)


# ---- the command line


class Status(enum.IntEnum):
    PASSED = 0
    FAILED = 1
    WORDS = 2
    FAULT = 3


class ShowRubric(argparse.Action):
    """Prints what a rubric may say, and ends."""

    def __call__(self, parser: argparse.ArgumentParser, *_: Any) -> None:
        for title, keys in (("At its top", TOP_KEYS), ("[machine]", MACHINE_KEYS), ("[[test]]", TEST_KEYS)):
            print(f"{title}:\n")
            for key, words in keys.items():
                print(f"  {key:13} {words}")
            print()
        print("Python functions: make(values), check(run); values.names, .drawn; run.output, run.lines, run.console,")
        print("run.steps, run.ticks, run.report, run.trace.calls, .exits, run.file(PATH), run.folder, run.xv6(..).")
        parser.exit()


def parser() -> argparse.ArgumentParser:
    words = argparse.ArgumentParser(
        description=__doc__, epilog=EXAMPLE, formatter_class=argparse.RawDescriptionHelpFormatter
    )
    words.add_argument(
        "rubric", metavar="RUBRIC", help="the lab's tests, in TOML, or in JSON if its name ends in .json"
    )
    words.add_argument("folder", metavar="FOLDER", help="the submission: its compiled programs")
    words.add_argument("--only", metavar="WORD", default="", help="only the tests whose names have the word in them")
    words.add_argument("--list", action="store_true", help="list the tests and their points, and run none")
    words.add_argument(
        "--seed", metavar="WORD", help="what the submission's own names and numbers come from; else the folder's name"
    )
    words.add_argument("--gradescope", metavar="FILE", help="write Gradescope's results.json")
    words.add_argument("--junit", metavar="FILE", help="write JUnit's XML")
    words.add_argument("--html", metavar="DIR", help="write pages: an overview, and each failed test's machine")
    words.add_argument(
        "--page", metavar="FILE", help="the page with the machine that `make web` makes (out/web/xv6.html)"
    )
    words.add_argument("--show-hidden", action="store_true", help="show hidden tests in the pages, too: for staff")
    words.add_argument(
        "--keep", metavar="DIR", help="keep the image and the script of each test's first run that fails"
    )
    words.add_argument("--status", choices=["graded"], help="exit with 0 if a result was written, as with --gradescope")
    words.add_argument("--quiet", action="store_true", help="print the score alone")
    words.add_argument("--keys", action=ShowRubric, nargs=0, help="print what a rubric may say, key by key")
    return words


def main(arguments: Optional[Sequence[str]] = None) -> int:
    words = parser().parse_args(arguments)
    try:
        return act(words)
    except (RubricFault, OSError) as error:
        print(error, file=sys.stderr)
        return Status.FAULT


def act(words: argparse.Namespace) -> int:
    """Does what the command line asks for."""
    rubric = read_rubric(words.rubric)
    tests = [test for test in rubric.tests if words.only in test.name]
    if words.list:
        for test in tests:
            print(f"{test.points:4} {test.name}")
        return Status.PASSED
    folder = pathlib.Path(words.folder)
    if not folder.is_dir():
        raise OSError(f"{words.folder}: there is no such folder")
    program = os.environ.get("XV6", "xv6")
    if not shutil.which(program):
        raise OSError(f"{program}: there is no such program: the variable XV6 names it")
    keeper = keeper_of(words)
    grading = grade(rubric, folder, words.seed or folder.resolve().name, program, tests, keeper)
    keeper.finish(grading)
    write_forms(grading, words)
    is_graded = words.gradescope or words.status == "graded"
    return Status.PASSED if is_graded or grading.has_passed else Status.FAILED


def keeper_of(words: argparse.Namespace) -> Keeper:
    """What the command line wants to be kept."""
    page = pathlib.Path(words.page) if words.page else PAGE
    if words.page and not page.is_file():
        raise OSError(f"{page}: there is no such page: make web makes it")
    return Keeper(
        keep=pathlib.Path(words.keep) if words.keep else None,
        pages=pathlib.Path(words.html) if words.html else None,
        machine=page.read_text(encoding="utf-8") if words.html and page.is_file() else None,
        shows_hidden=words.show_hidden,
    )


def write_forms(grading: Grading, words: argparse.Namespace) -> None:
    lines = list(own_form(grading, Colours(sys.stdout.isatty())))
    print("\n".join(lines[-2:-1] if words.quiet else lines))
    if words.gradescope:
        write_whole(words.gradescope, json.dumps(gradescope(grading), indent=1) + "\n")
    if words.junit:
        write_whole(words.junit, junit(grading))


if __name__ == "__main__":
    sys.exit(main())
