"""Disk images in memory, and the programs on them."""
from __future__ import annotations

import ctypes
import os
from dataclasses import dataclass
from typing import Dict, Iterator, List, Mapping, Optional, Tuple, Union

from .library import AssembledPut, EntryPut, Error, ExpandedPut, SummaryPut, library as _library

__all__ = [
    "AssemblyError", "AssemblyFault", "Entry", "Image", "ImageError", "Line", "Program", "Space", "Usage", "assemble", "assemble_exactly", "locate",
]

Data = Union[bytes, bytearray, memoryview]
Text = Union[str, bytes]

_NO_MEMORY = 4
_BLOCK = 1024
_PROGRAM = 274_432
_AS_FAULTS = 600
_KINDS = {1: "directory", 2: "file", 3: "device"}
_NAME = 14
_ROOM = 1 << 16

_REASONS = {
    101: "the bytes are not as many as the super block says",
    102: "the magic number is wrong",
    103: "the numbers of the super block don't fit one another",
    104: "an inode has an unknown type, or the root is no directory",
    105: "an inode's number names no data block, or isn't 0 where its size asks for none",
    106: "a block is named twice",
    107: "the bitmap doesn't mark the blocks that are in use",
    108: "an inode has a size that its type can't have",
    109: "an entry of a directory is wrong",
    110: "a count of links is wrong",
    111: "an inode in use isn't reached from the root",
    201: "it is not found",
    202: "it is no directory",
    203: "a device is there",
    204: "it is a directory",
    209: "the blocks don't suffice, or the file is too long",
    210: "no inode is free",
    211: "the directory is full",
    301: "a path or a name in it is wrong",
    302: "a name is there twice",
    303: "the blocks don't suffice, or a file is too long",
    304: "the inodes don't suffice",
    305: "a directory isn't there",
    306: "the numbers fit no image",
    307: "an entry is of no kind",
    401: "the files take more blocks than the image has",
}
_WRONG = {
    500: "the text is no UTF-8",
    501: "this can't be read",
    502: "no instruction or directive is called so",
    503: "the operands are not those of the word",
    504: "a number or a distance doesn't fit, or the program has more than 270336 bytes",
    505: "nothing defines this label",
    506: "an earlier line defines this label",
    507: "an instruction lies at a multiple of 4, and a distance is even",
}


class ImageError(Error):
    """An image is refused, or what was to be done with it. `number` is that of the library."""

    def __init__(self, number: int, path: Optional[str] = None):
        reason = _REASONS.get(number, f"error {number}")
        super().__init__(reason if path is None else f"{path}: {reason}")
        self.number = number


@dataclass(frozen=True)
class AssemblyFault:
    """What is wrong in a line of an assembly text; lines and columns count from 1."""

    line: int
    column: int
    reason: str


class AssemblyError(Error):
    """A text isn't assembled. `faults` has all that is wrong with it."""

    def __init__(self, faults: Tuple[AssemblyFault, ...]):
        super().__init__("; ".join(f"line {it.line}: {it.reason}" for it in faults))
        self.faults = faults


@dataclass(frozen=True)
class Line:
    """A line of the text to which another one is expanded."""

    line: int
    """The line of the given text that it comes of, from 1 on, or 0."""
    address: int
    """Where it is in the program."""
    text: str


@dataclass(frozen=True)
class Program:
    """A program that was made of a text."""

    file: bytes
    """The program's file, as it is put on an image."""
    lines: Tuple[Line, ...]
    """What the text is expanded to."""


@dataclass(frozen=True)
class Entry:
    """An entry of a directory."""

    name: str
    kind: str
    """"directory", "file" or "device"."""
    number: int
    size: int
    """In bytes."""


@dataclass(frozen=True)
class Usage:
    """What an image uses."""

    inodes: int
    blocks: int
    """Of 1024 bytes, for data."""


@dataclass(frozen=True)
class Space:
    """What is free on an image."""

    inodes: int
    blocks: int
    """Of 1024 bytes, for data."""


def assemble(text: Text) -> Program:
    """Assembles a text as other assemblers take it, as `xv6 as` does. It includes no other files.

    `AssemblyError` has all that is wrong with the text.

    >>> program = assemble("_start:\\n    li a0, 100000\\n    li a7, 2\\n    ecall\\n")
    >>> [(it.line, it.address, it.text) for it in program.lines if it.line == 2]
    [(2, 0, 'lui a0, 24'), (2, 4, 'addiw a0, a0, 1696')]
    >>> assemble("_start:\\n    addii a0, a0, 1\\n")
    Traceback (most recent call last):
        ...
    cathompi.images.AssemblyError: line 2: no instruction has this name: did you mean addi?
    """
    data, told, room = _encoded(text), ExpandedPut(), _ROOM
    out = ctypes.create_string_buffer(_PROGRAM)
    while True:
        report = ctypes.create_string_buffer(room)
        answer = _library.xv6_raw_as(data, len(data), out, _PROGRAM, report, room, told)
        if answer == _NO_MEMORY:
            raise MemoryError("the host has no memory for the program")
        if told.report <= room:
            break
        room = told.report
    rows = [row.split(" ", 2) for row in report.raw[:told.report].decode().split("\n")[:-1]]
    if answer == _AS_FAULTS:
        raise AssemblyError(tuple(AssemblyFault(int(line), int(column), words) for line, column, words in rows))
    return Program(out.raw[:told.bytes], tuple(Line(int(line), int(address), said) for line, address, said in rows))


def assemble_exactly(text: Text) -> bytes:
    """The program's file of a text in the language of `xv6 asm`. `AssemblyError` has the first line that is wrong.

    >>> assemble_exactly("_start: addi a7, zero, 2\\necall\\n")[:4]
    b'\\x7fELF'
    """
    data, told = _encoded(text), AssembledPut()
    out = ctypes.create_string_buffer(_PROGRAM)
    answer = _library.xv6_raw_asm(data, len(data), out, _PROGRAM, told)
    if answer == _NO_MEMORY:
        raise MemoryError("the host has no memory for the program")
    if answer:
        raise AssemblyError((AssemblyFault(told.line, 1, _WRONG.get(answer, f"error {answer}")),))
    return out.raw[:told.bytes]


def locate(program: Union[bytes, Program], address: int) -> str:
    """What a program's file says of an address, by its symbol table and its line numbers: `sum+0x10 (oops.c:4)`. Empty where it says nothing.

    >>> locate(assemble("_start: ecall\\n"), 0)
    ''
    """
    told, count, room = bytes(program.file if isinstance(program, Program) else program), ctypes.c_size_t(), _ROOM
    while True:
        out = ctypes.create_string_buffer(room)
        if _library.xv6_raw_locate(told, len(told), address, out, room, count) == _NO_MEMORY:
            raise MemoryError("the host has no memory for the names")
        if count.value <= room:
            return out.raw[:count.value].decode("latin-1")
        room = count.value


class Image:
    """A disk image: its bytes, which are checked, and the files on it.

    Paths begin with a slash. `image[path]` is a file's bytes, and `image[path] = data` puts a file, which is made where there is none.

    >>> image = Image.make({"/d": None, "/d/hello": b"hi"}, blocks=64, inodes=16)
    >>> image["/d/hello"]
    b'hi'
    >>> image["/d/other"] = b"you"
    >>> [entry.name for entry in image.list("/d")]
    ['.', '..', 'hello', 'other']
    >>> image.check(), image.free
    (Usage(inodes=4, blocks=4), Space(inodes=11, blocks=55))
    >>> "/none" in image, "/d/hello" in image
    (False, True)
    """

    def __init__(self, data: Data) -> None:
        self._data = ctypes.create_string_buffer(bytes(data), len(data))
        self.check()

    # ---- its making

    @classmethod
    def make(
        cls, files: Mapping[str, Union[None, Data, Tuple[int, int]]], *, blocks: int = 2000, inodes: int = 200
    ) -> Image:
        """An image of that many blocks of 1024 bytes and inodes, with what is at each path, in their order.

        None is a directory, which comes before what is in it; bytes are a file; two numbers are the major and the minor of a device.
        `ImageError` says what is wrong.
        """
        entries = (EntryPut * len(files))()
        parts: List[bytes] = []
        for entry, (path, what) in zip(entries, files.items()):
            data = bytes(what) if isinstance(what, (bytes, bytearray, memoryview)) else b""
            entry.kind = 1 if what is None else 3 if isinstance(what, tuple) else 2
            if isinstance(what, tuple):
                entry.major, entry.minor = what
            parts += [os.fsencode(path), data]
            entry.path, entry.size = len(parts[-2]), len(data)
        told = b"".join(parts)
        if not 0 <= blocks < 1 << 20 or not 0 <= inodes < 1 << 32:
            raise ImageError(306)
        room = ctypes.create_string_buffer(blocks * _BLOCK)
        _raise_for(_library.xv6_raw_mkfs(entries, len(entries), told, len(told), inodes, room, len(room)))
        return cls(room.raw)

    @classmethod
    def from_manifest(cls, text: str, folder: str = ".", *, blocks: int = 2000, inodes: int = 200) -> Image:
        """An image of a manifest's lines, as `xv6 mkfs` makes it: "dir PATH", "file PATH NAME", "device PATH MAJOR MINOR".

        The files are those of a folder; of a NAME that is not there NAME.s is assembled.
        """
        files: Dict[str, Union[None, bytes, Tuple[int, int]]] = {}
        for number, line in enumerate(text.splitlines(), 1):
            words = line.split(" ")
            if not line.strip() or line.startswith("#"):
                continue
            path = words[1] if len(words) > 1 else ""
            if path in files:
                raise ImageError(302, path)
            if words[0] == "dir" and len(words) == 2:
                files[path] = None
            elif words[0] == "file" and len(words) == 3:
                files[path] = _read(os.path.join(folder, words[2]))
            elif words[0] == "device" and len(words) == 4:
                files[path] = int(words[2]), int(words[3])
            else:
                raise ValueError(f"line {number} of the manifest is no entry: {line}")
        return cls.make(files, blocks=blocks, inodes=inodes)

    @classmethod
    def from_dir(cls, folder: str, *, blocks: int = 2000, inodes: int = 200) -> Image:
        """An image of a folder: by its file `manifest`, where it has one; else with all files in it and below it.

        Assembly texts, NAME.s, are put as the programs NAME.
        """
        manifest = os.path.join(folder, "manifest")
        if os.path.exists(manifest):
            with open(manifest, encoding="utf-8") as lines:
                return cls.from_manifest(lines.read(), folder, blocks=blocks, inodes=inodes)
        files: Dict[str, Union[None, bytes, Tuple[int, int]]] = {}
        for above, folders, names in os.walk(folder):
            folders.sort()
            where = "/" + os.path.relpath(above, folder).replace(os.sep, "/") if above != folder else ""
            if where:
                files[where] = None
            for name in sorted(names):
                stem = name[:-2] if name.endswith(".s") else name
                files[f"{where}/{stem}"] = _read(os.path.join(above, stem) if stem != name else os.path.join(above, name))
        return cls.make(files, blocks=blocks, inodes=inodes)

    @classmethod
    def migrated(cls, data: Data) -> Image:
        """An image of the format in use with the files of one of the format of small files, which earlier versions wrote."""
        room = ctypes.create_string_buffer(bytes(data), len(data))
        _raise_for(_library.xv6_raw_migrate(room, len(room)))
        return cls(room.raw)

    # ---- its files

    def check(self) -> Usage:
        """Checks the image, and returns what it uses. `ImageError` names the first rule that it breaks."""
        told = SummaryPut()
        _raise_for(_library.xv6_raw_check(self._data, len(self._data), told))
        return Usage(told.inodes, told.blocks)

    @property
    def free(self) -> Space:
        """What is free: of what the super block counts, all that is not used."""
        used = self.check()
        blocks, inodes = (int.from_bytes(self._data.raw[at:at + 4], "little") for at in (_BLOCK + 8, _BLOCK + 12))
        return Space(inodes - 1 - used.inodes, blocks - used.blocks)

    def list(self, path: str = "/") -> List[Entry]:
        """The entries of a directory, in their order."""
        rows = self._told(_library.xv6_raw_list, path).split(b"\n")[:-1]
        told = [(row[:_NAME], row[_NAME:].split()) for row in rows]
        return [
            Entry(os.fsdecode(name.rstrip(b" ")), _KINDS[int(kind)], int(number), int(size)) for name, (kind, number, size) in told
        ]

    def files(self) -> Dict[str, Entry]:
        """All files, directories and devices but the root, by their paths."""
        found: Dict[str, Entry] = {}
        left = ["/"]
        while left:
            above = left.pop()
            for entry in self.list(above):
                if entry.name not in (".", ".."):
                    path = above + entry.name if above == "/" else f"{above}/{entry.name}"
                    found[path] = entry
                    if entry.kind == "directory":
                        left.append(path)
        return dict(sorted(found.items()))

    def __iter__(self) -> Iterator[str]:
        return iter(self.files())

    def __len__(self) -> int:
        return len(self.files())

    def __contains__(self, path: object) -> bool:
        return path in self.files()

    def __getitem__(self, path: str) -> bytes:
        return self._told(_library.xv6_raw_get, path)

    def __setitem__(self, path: str, data: Union[Data, Program]) -> None:
        told, at = bytes(data.file if isinstance(data, Program) else data), os.fsencode(path)
        _raise_for(_library.xv6_raw_put(self._data, len(self._data), at, len(at), told, len(told)), path)

    def _told(self, function: ctypes._NamedFuncPointer, path: str) -> bytes:
        """The bytes that a function returns of a path."""
        at, count, room = os.fsencode(path), ctypes.c_size_t(), _ROOM
        while True:
            out = ctypes.create_string_buffer(room)
            _raise_for(function(self._data, len(self._data), at, len(at), out, room, count), path)
            if count.value <= room:
                return out.raw[:count.value]
            room = count.value

    # ---- its bytes

    def __bytes__(self) -> bytes:
        return self._data.raw

    @classmethod
    def read(cls, name: str) -> Image:
        """The image that a file has."""
        with open(name, "rb") as file:
            return cls(file.read())

    def write(self, name: str) -> None:
        """Writes the image to a file."""
        with open(name, "wb") as file:
            file.write(bytes(self))


def _encoded(text: Text) -> bytes:
    return text.encode() if isinstance(text, str) else bytes(text)


def _read(name: str) -> bytes:
    """A file's bytes; of one that isn't there, but whose text NAME.s is, the program that is assembled of that."""
    if os.path.exists(name):
        with open(name, "rb") as file:
            return file.read()
    if not os.path.exists(name + ".s"):
        raise FileNotFoundError(name)
    with open(name + ".s", "rb") as text:
        data = text.read()
    try:
        return assemble_exactly(data)
    except AssemblyError:
        return assemble(data).file


def _raise_for(number: int, path: Optional[str] = None) -> None:
    if number == _NO_MEMORY:
        raise MemoryError("the host has no memory for the image")
    if 201 <= number <= 202:
        raise FileNotFoundError(path if path is not None else _REASONS[number])
    if number:
        raise ImageError(number, path)
