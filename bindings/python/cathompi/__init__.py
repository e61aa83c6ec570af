"""xv6 as a pure machine, from Python.

    from cathompi import Machine

    with Machine(open("xv6.img", "rb").read()) as machine:
        machine.run_until("$ ")
        machine.type("ls\\n")
        print(machine.run_until("$ ").decode())

A machine does only what it is told: steps, timer interrupts and keys. The same of these on the same image, with the same number of
frames, do the same each time. The library, libxv6.so, lies beside this file, or the variable XV6_LIBRARY names it.
"""
from __future__ import annotations

import ctypes
import os
import threading
from dataclasses import dataclass
from typing import Any, Dict, Iterator, List, Optional, Sequence, Tuple, Union

from .library import (
    VERSION, DescriptorPut as _Descriptor, Error, FaultPut as _Fault, MachinePut as _Machine, ProcessPut as _Process, StatPut as _Stat,
    WaitPut as _Wait, WalkPut as _Walk, library as _library,
)
from .events import CALLS as _CALLS, Call, Event, Exit, Fault, Output, events_of
from .images import AssemblyError, AssemblyFault, Entry, Image, ImageError, Line, Program, Space, Usage, assemble, assemble_exactly, locate
from .programs import Programs as _Programs
from .schedules import Outcome, schedules
from .shown import machine_html, page_html, page_table_html, pipe_html, process_html, tree_svg

__all__ = [
    "AssemblyError", "AssemblyFault", "BootError", "Call", "Closed", "Descriptor", "Entry", "Error", "Event", "Exit", "Fault", "Halted", "Image",
    "ImageError", "Line", "Machine", "NextFault", "Node", "NotPrinted", "NotReached", "OpenFile", "Outcome", "Output", "Page", "PageTable", "Pipe",
    "Process", "Program", "Space", "TableEntry", "Tree", "Usage", "VERSION", "Waiting", "assemble", "assemble_exactly", "locate", "schedules",
]

PAGE_SIZE = 4096

_BOOTS = {
    1: "the bytes are no image",
    2: "the number of frames is not from 64 to 32768",
    3: "the disk failed",
    4: "the host has no memory",
    5: "there is no file /init, it is no program, or the frames do not suffice for it",
}
_HALTS = {
    1: "process 1 ended",
    2: "the disk failed",
    3: "the host has no memory for the console's bytes",
    4: "the machine had stopped before",
}
_STATES = {1: "running", 2: "ready", 3: "waiting", 4: "ended"}
_KINDS = {1: "directory", 2: "file", 3: "device"}
_ENDS = {1: "file", 2: "console", 3: "device", 4: "read end", 5: "write end"}
_CAUSES = {
    0: "instruction address misaligned", 2: "illegal instruction", 3: "breakpoint", 4: "load address misaligned",
    6: "store address misaligned", 12: "instruction page fault", 13: "load page fault", 15: "store page fault",
}
_DESCRIPTORS = 16
_PIPE_SIZE = 512
_PIPE_ENDS = ("read end", "write end")
_ROOT = 1
_SLICE = 100_000


class BootError(Error):
    """The image does not boot. `number` is that of the library."""

    def __init__(self, number: int):
        super().__init__(_BOOTS.get(number, f"error {number}"))
        self.number = number


class Halted(Error):
    """The machine stops. `number` is that of the library: 1 where process 1 ended. One can still look at it, and save it."""

    def __init__(self, number: int):
        super().__init__(_HALTS.get(number, f"error {number}"))
        self.number = number


class Closed(Error, ValueError):
    """The machine was closed or saved."""

    def __init__(self) -> None:
        super().__init__("the machine is closed")


class NotPrinted(Error):
    """A run ended before a text was printed. What was printed is kept for `console`."""


class NotReached(Error):
    """`until` ended before what it was to run to."""


@dataclass(frozen=True)
class Process:
    """A process, as it is between two events."""

    pid: int
    parent: int
    """The pid of its parent; 0 for process 1."""
    state: str
    """"running", "ready", "waiting" or "ended"."""
    call: Optional[str]
    """The call that it waits in, as "read"."""
    status: Optional[int]
    """What it ended with."""
    killed: bool
    pc: int
    registers: Tuple[int, ...]
    """x0 to x31."""
    size: int
    """In bytes."""

    def _repr_html_(self) -> str:
        return process_html(self)


@dataclass(frozen=True)
class _Opened:
    """What a descriptor and the open file that it names have in common."""

    file: int
    """The number of the open file: descriptors with the same one share its offset."""
    kind: str
    """"file" (a directory is one, too), "console", "device", "read end" or "write end"."""
    number: int
    """The number of its node, or of its pipe."""
    offset: int
    """In bytes; 0 except in a file."""
    readable: bool
    writable: bool


@dataclass(frozen=True)
class Descriptor(_Opened):
    """The open file that a descriptor of a process names."""

    descriptors: int
    """How many descriptors of all processes name it."""


@dataclass(frozen=True)
class OpenFile(_Opened):
    """An open file, with all descriptors that name it."""

    holders: Tuple[Tuple[int, int], ...]
    """Pids, each with the descriptor."""


@dataclass(frozen=True)
class Pipe:
    """A pipe that a descriptor names."""

    number: int
    data: bytes
    """What was written and not read yet, the oldest byte first."""
    readers: Tuple[Tuple[int, int], ...]
    """Who holds the read end: pids, each with the descriptor."""
    writers: Tuple[Tuple[int, int], ...]
    """Who holds the write end."""

    def _repr_html_(self) -> str:
        return pipe_html(self, _PIPE_SIZE)


@dataclass(frozen=True)
class Waiting:
    """The call that a process waits in."""

    call: str
    arguments: Tuple[int, int, int]
    """a0 to a2 as it began: of "read" and "write" the descriptor, the address and the count."""
    done: int
    """How many bytes were read or written so far."""
    since: int
    """The count of ticks as it began."""
    what: str
    """What it waits for, in words, as "bytes in pipe 0"."""
    enders: Tuple[int, ...]
    """The pids of processes that could end that, by what they do next: children, or who holds the other end of a pipe. Typed lines and
    ticks come from outside, and any process may kill."""


@dataclass(frozen=True)
class NextFault:
    """The fault that the next instruction of a process would raise."""

    cause: str
    """As "load page fault", by the RISC-V manual."""
    address: int
    """The target of a jump, the address of a load or a store, else the pc."""
    pc: int


@dataclass(frozen=True)
class TableEntry:
    """An entry of a page table, as a walk reads it."""

    level: int
    """2, the root's table, to 0."""
    index: int
    """Which of the 512 entries of its table it is."""
    word: int

    @property
    def marks(self) -> str:
        """Its marks as "da-uxwrv": dirty, accessed, global, user, execute, write, read, valid; "-" where one is not set."""
        return "".join(letter if self.word >> bit & 1 else "-" for bit, letter in zip(range(7, -1, -1), "daguxwrv"))

    @property
    def frame(self) -> int:
        """The number of the frame that it names; the machine's first has 0x80000."""
        return self.word >> 10 & (1 << 44) - 1

    @property
    def is_leaf(self) -> bool:
        """Whether it names a page, and no table of the next level."""
        return bool(self.word & 1 and self.word & 14)


@dataclass(frozen=True)
class PageTable:
    """What the page table of a process says of its pages; a notebook shows it as a table."""

    pid: int
    walks: Tuple[Tuple[TableEntry, ...], ...]
    """For each page, from that of address 0 on, the entries that its walk reads; the last of them is the page's own, or is not valid."""

    def _repr_html_(self) -> str:
        return page_table_html(self)


@dataclass(frozen=True)
class Tree:
    """Processes as a tree, each below its parent; a notebook draws it."""

    processes: Tuple[Process, ...]
    names: Tuple[Optional[str], ...]
    """The names of their programs, where they are known."""

    def _repr_svg_(self) -> str:
        return tree_svg(self.processes, self.names)


@dataclass(frozen=True)
class Page:
    """A page of a process."""

    data: bytes
    readable: bool
    writable: bool
    executable: bool

    @property
    def marks(self) -> str:
        """What the program may do with it, as "rw-"."""
        return "".join(mark if may else "-" for mark, may in zip("rwx", (self.readable, self.writable, self.executable)))

    def _repr_html_(self) -> str:
        return page_html(self)


@dataclass(frozen=True)
class Node:
    """A node of the disk."""

    number: int
    kind: str
    """"directory", "file" or "device"."""
    links: int
    """How many names it has."""
    size: int
    """In bytes."""


class Machine:
    """A machine that boots from a copy of an image, with 64 to 32768 frames of 4096 bytes.

    It is a context manager: `with Machine(image) as machine:` closes it at the end. Iterating over it gives the console's bytes as
    they are printed, until no process runs or is ready.
    """

    def __init__(self, image: Union[bytes, bytearray, memoryview, Image], frames: int = 256) -> None:
        image = image if isinstance(image, bytes) else bytes(image if isinstance(image, Image) else memoryview(image))
        self._set_up(len(image))
        fault = _library.xv6_raw_boot(image, len(image), _number(frames), self._at)
        if fault:
            raise BootError(fault)

    def _set_up(self, length: int, kept: bytes = b"") -> None:
        """No machine yet: how many bytes its image has, and what it printed and nobody took."""
        self._at = _Machine()
        self._lock = threading.RLock()
        self._room = ctypes.create_string_buffer(1 << 16)
        self._length = length
        self._kept = kept
        self._lines: List[Tuple[str, Any]] = []

    # ---- its life

    def copy(self) -> Machine:
        """A machine of its own that goes on from where this one stands, also with what was printed and `console` did not give yet.

        Neither sees what the other does, and each is closed by itself. MemoryError where the host has no memory for it.
        """
        with self._lock:
            at = self._open()
            other = object.__new__(type(self))
            other._set_up(self._length, self._kept)
            if _library.xv6_raw_copy(at, other._at):
                raise MemoryError("the host has no memory for a copy")
            other._lines = list(self._lines)
            return other

    __copy__ = copy

    def __deepcopy__(self, _memo: Dict[int, object]) -> Machine:
        return self.copy()

    def close(self) -> None:
        """Ends the machine and frees its memory. Nothing happens where it is closed."""
        with self._lock:
            if self._at.inside:
                _library.xv6_raw_close(self._at)
                self._at.inside = None

    def save(self) -> bytes:
        """Ends the machine, as `close` does, and gives the bytes of its disk: what the files are without the processes."""
        with self._lock:
            image, count = ctypes.create_string_buffer(self._length), ctypes.c_size_t()
            at = self._open()
            answer = _library.xv6_raw_save(at, image, self._length, count)
            at.inside = None
            _raise_for(answer)
            return image.raw[:count.value]

    def image(self) -> Image:
        """The image that `save` would give now; the machine goes on."""
        with self.copy() as copy:
            return Image(copy.save())

    @property
    def closed(self) -> bool:
        return not self._at.inside

    def __enter__(self) -> Machine:
        return self

    def __exit__(self, *_error: object) -> None:
        self.close()

    def __del__(self) -> None:
        if hasattr(self, "_lock"):
            self.close()

    def _open(self) -> _Machine:
        if not self._at.inside:
            raise Closed()
        return self._at

    # ---- events

    def steps(self, times: int) -> None:
        """Takes n steps, each an instruction or a turn of the scheduler, up to the first at which the machine stops."""
        with self._lock:
            answer = _library.xv6_raw_steps(self._open(), _number(times))
            self._note("step", times)
            _raise_for(answer)

    def run(self, most: int = 100_000_000) -> int:
        """Takes steps until no process runs or is ready, and at most n. Returns how many: `steps` of as many does the same."""
        with self._lock:
            done = ctypes.c_uint32()
            answer = _library.xv6_raw_run(self._open(), _number(most), done)
            self._note("step", done.value)
            _raise_for(answer)
            return done.value

    def compute(self, most: int = 1_000_000, stops: Sequence[int] = ()) -> int:
        """Takes steps that are instructions of the process that runs, at most `most`, and returns how many.

        It ends before a call or a fault, and at the first of the addresses `stops` that the pc comes to after the first of them. It takes
        none where no process runs.
        """
        addresses = (ctypes.c_uint64 * len(stops))(*(_number(address, 64) for address in stops))
        with self._lock:
            done = int(_library.xv6_raw_compute(self._open(), _number(most), addresses, len(stops)))
            self._note("step", done)
            return done

    def run_to(self, address: int, *, pid: Optional[int] = None, most: int = 100_000_000) -> int:
        """Runs to an address: until the next instruction of a process, or of one process, is there. Returns how many steps it took.

        An instruction that is there already is passed. `NotReached` where none comes there.
        """
        with self._lock:
            taken = 0
            while taken < most:
                done = self.compute(most - taken, (address,))
                if done == 0:
                    done = self.run(1)
                if done == 0:
                    break
                taken += done
                running = self.running
                process = self.process(running) if running is not None and pid in (None, running) else None
                if process is not None and process.pc == address:
                    return taken
            raise NotReached(f"the pc did not come to {address:#x}: {'all processes wait' if self.idle else f'not in {most} steps'}")

    def tick(self, times: int = 1) -> None:
        """That many timer interrupts."""
        with self._lock:
            for _tick in range(times):
                answer = _library.xv6_raw_tick(self._open())
                self._note("tick", 1)
                _raise_for(answer)

    def type(self, text: Union[str, bytes]) -> None:
        """Types a text at the console, a byte after the other."""
        with self._lock:
            for byte in text.encode() if isinstance(text, str) else text:
                answer = _library.xv6_raw_key(self._open(), byte)
                self._note("keys", bytes([byte]))
                _raise_for(answer)

    def _note(self, kind: str, what: Any) -> None:
        """Keeps events for `script`: a number of steps or ticks, or keys."""
        if what and self._lines and self._lines[-1][0] == kind:
            self._lines[-1] = (kind, self._lines[-1][1] + what)
        elif what:
            self._lines.append((kind, what))

    def script(self) -> str:
        """All events since the boot, as `xv6 run` takes them: with the same image and as many frames it does the same."""
        return "".join(f"{kind} {what.hex() if kind == 'keys' else what}\n" for kind, what in self._lines)

    def run_until(self, text: Union[str, bytes], most: int = 100_000_000, ticks: int = 0) -> bytes:
        """Runs until the console has printed a text, and gives what it printed up to the text's end.

        It takes at most so many steps, and at most so many ticks where nobody is ready before the text was printed; then it
        raises `NotPrinted`. What is printed behind the text is kept for `console`.
        """
        text = text.encode() if isinstance(text, str) else bytes(text)
        with self._lock:
            while True:
                self._kept += self._take()
                front, found, rest = self._kept.partition(text)
                if found:
                    self._kept = rest
                    return front + found
                if most <= 0:
                    raise NotPrinted(f"{text!r} was not printed in as many steps")
                done = self.run(min(most, _SLICE))
                most -= done
                if done == 0:
                    if ticks <= 0:
                        raise NotPrinted(f"{text!r} was not printed when all processes waited")
                    ticks -= 1
                    self.tick()

    def events(self, most: int = 1_000_000) -> Iterator[Event]:
        """Takes steps, at most `most`, until no process runs or is ready, and gives what happens: calls, faults, exits, output.

        A `Call` is given before its instruction is done, and the others after the step that did them: whoever stops at a call finds
        the machine before it. It looks once for each call and each turn.
        """
        return events_of(self, most)

    def until(
        self, call: Optional[str] = None, *, pid: Optional[int] = None, fault: bool = False, exit: bool = False, most: int = 1_000_000
    ) -> Event:
        """Runs to the next call with a name, fault or exit, of any process or of one, and returns that event.

        The machine is before the instruction of a call, and after that of a fault or an exit. `call="any"` is each call. A call that is
        next already is passed. `NotReached` where nothing of it comes.
        """
        if call is None and not fault and not exit:
            raise ValueError("until: no call, fault or exit is named")
        for event in self.events(most):
            is_passed = isinstance(event, Call) and event.at == 0
            if not is_passed and _is_wanted(event, call, fault, exit) and pid in (None, getattr(event, "pid", None)):
                return event
        wanted = " or ".join([f"call {call}"] * (call is not None) + ["fault"] * fault + ["exit"] * exit)
        raise NotReached(f"no {wanted} came: {'all processes wait' if self.idle else f'not in {most} steps'}")

    # ---- the console

    def console(self) -> bytes:
        """What the console printed since this was called last."""
        with self._lock:
            taken, self._kept = self._kept + self._take(), b""
            return taken

    def __iter__(self) -> Iterator[int]:
        """The console's bytes, as the machine runs, until no process runs or is ready."""
        while True:
            yield from self.console()
            if self.run(_SLICE) == 0:
                break
        yield from self.console()

    def _take(self) -> bytes:
        parts: List[bytes] = []
        while True:
            count = _library.xv6_raw_console(self._open(), self._room, len(self._room))
            if not count:
                return b"".join(parts)
            parts.append(ctypes.string_at(self._room, count))

    # ---- processes

    def process(self, pid: int) -> Optional[Process]:
        """What is known of the process with a pid, if there is one."""
        told = _Process()
        with self._lock:
            if _library.xv6_raw_process(self._open(), _number(pid), told):
                return None
        return Process(
            pid=told.pid, parent=told.parent, state=_STATES[told.state], call=_CALLS.get(told.call, str(told.call)) if told.state == 3 else None,
            status=told.status if told.state == 4 else None, killed=bool(told.killed), pc=told.pc, registers=tuple(told.registers), size=told.size,
        )

    @property
    def running(self) -> Optional[int]:
        """The pid of the process that runs, if one does."""
        with self._lock:
            return _library.xv6_raw_running(self._open()) or None

    def fault(self, pid: int) -> Optional[NextFault]:
        """The fault that the next instruction of a process would raise if it were done now, if any. A call is none."""
        at = _Fault()
        with self._lock:
            if _library.xv6_raw_fault(self._open(), _number(pid), at):
                return None
        return NextFault(_CAUSES[at.cause], at.address, at.pc)

    def waiting(self, pid: int) -> Optional[Waiting]:
        """The call that a process waits in, if it waits."""
        at = _Wait()
        with self._lock:
            process = self.process(pid)
            if process is None or process.call is None or _library.xv6_raw_wait(self._open(), pid, at):
                return None
            first, second, third = at.arguments
            what, enders = self._awaited(process, first, at.since)
        return Waiting(process.call, (first, second, third), at.done, at.since, what, enders)

    def _awaited(self, process: Process, first: int, since: int) -> Tuple[str, Tuple[int, ...]]:
        """What a process waits for, in words, and who could end that."""
        if process.call == "wait":
            return "a child that ends", tuple(it.pid for it in self.processes() if it.parent == process.pid)
        if process.call == "sleep":
            time = first & 0xFFFFFFFF
            return f"tick {since + (time if time < 1 << 31 else 0) & 0xFFFFFFFF}", ()
        named = self.descriptors(process.pid).get(first & 0xFFFFFFFF)
        pipe = next((it for it in self.pipes if named is not None and named.kind in _PIPE_ENDS and it.number == named.number), None)
        if named is None or pipe is None:
            return "a line of the console", ()
        if named.kind == "read end":
            return f"bytes in pipe {pipe.number}", _pids(pipe.writers)
        return f"room in pipe {pipe.number}", _pids(pipe.readers)

    def descriptors(self, pid: int) -> Dict[int, Descriptor]:
        """The descriptors of a process that name something, with their open files."""
        found: Dict[int, Descriptor] = {}
        at = _Descriptor()
        with self._lock:
            for number in range(_DESCRIPTORS):
                if not _library.xv6_raw_descriptor(self._open(), _number(pid), number, at):
                    found[number] = Descriptor(
                        at.file, _ENDS[at.kind], at.number, at.offset, bool(at.readable), bool(at.writable), at.descriptors
                    )
        return found

    @property
    def open_files(self) -> List[OpenFile]:
        """The open files that descriptors name, in the order of their numbers, with who holds them."""
        held: Dict[int, List[Tuple[int, int]]] = {}
        named: Dict[int, Descriptor] = {}
        with self._lock:
            for process in self.processes():
                for number, it in self.descriptors(process.pid).items():
                    held.setdefault(it.file, []).append((process.pid, number))
                    named[it.file] = it
        return [
            OpenFile(file, it.kind, it.number, it.offset, it.readable, it.writable, tuple(held[file])) for file, it in sorted(named.items())
        ]

    @property
    def pipes(self) -> List[Pipe]:
        """The pipes that descriptors name, in the order of their numbers, with what is in them and who holds which end."""
        ends: Dict[int, Dict[str, List[Tuple[int, int]]]] = {}
        with self._lock:
            for process in self.processes():
                for number, named in self.descriptors(process.pid).items():
                    if named.kind in _PIPE_ENDS:
                        held = ends.setdefault(named.number, {"read end": [], "write end": []})
                        held[named.kind].append((process.pid, number))
            return [
                Pipe(pipe, self._in_pipe(pipe), tuple(held["read end"]), tuple(held["write end"])) for pipe, held in sorted(ends.items())
            ]

    def _in_pipe(self, pipe: int) -> bytes:
        count = ctypes.c_size_t()
        _library.xv6_raw_pipe(self._open(), pipe, self._room, _PIPE_SIZE, count)
        return ctypes.string_at(self._room, count.value)

    def directory(self, pid: int) -> Optional[int]:
        """The number of the working directory of a process; None once it has ended, and where there is no such process."""
        with self._lock:
            return _library.xv6_raw_directory(self._open(), _number(pid)) or None

    @property
    def digest(self) -> int:
        """A number that is made of the whole state: machines in the same state have the same one, others another except by chance."""
        at = ctypes.c_uint64()
        with self._lock:
            _raise_for(_library.xv6_raw_digest(self._open(), at))
            return at.value

    def _printed(self) -> bytes:
        """What the console printed since it was looked at last; it is kept for `console`."""
        with self._lock:
            data = self._take()
            self._kept += data
            return data

    def program(self, pid: int) -> Optional[str]:
        """The name of the program that a process has; None where no file on the disk has its bytes, and where there is no such process.

        A machine keeps no names: it is that of the file whose first page the process has in the most of its bytes.
        """
        return _Programs(self).name(pid)

    @property
    def tree(self) -> Tree:
        """The processes as a tree."""
        processes, programs = self.processes(), _Programs(self)
        return Tree(tuple(processes), tuple(programs.name(it.pid) for it in processes))

    def _repr_html_(self) -> str:
        if self.closed:
            return "<p>a machine that is closed</p>"
        tree, space = self.tree, self.free_space
        waits = [waiting.what if waiting is not None else None for waiting in (self.waiting(it.pid) for it in tree.processes)]
        counts = f"{self.free_frames} frames, {space.blocks} blocks and {space.inodes} inodes free; tick {self.ticks}"
        return machine_html(tree.processes, tree.names, waits, f"{counts}; the next fork gives process {self.coming_pid}")

    def processes(self) -> List[Process]:
        """All processes, in the order of their pids."""
        with self._lock:
            told, pid = [], _library.xv6_raw_next_pid(self._open(), 0)
            while pid:
                told.append(self.process(pid))
                pid = _library.xv6_raw_next_pid(self._open(), pid)
            return [process for process in told if process]

    def page(self, pid: int, number: int) -> Optional[Page]:
        """A page of a process, by its number from 0 on; None past the last, and where there is no such process."""
        with self._lock:
            marks = _library.xv6_raw_page(self._open(), _number(pid), _number(number, 64), self._room, PAGE_SIZE)
            return Page(ctypes.string_at(self._room, PAGE_SIZE), bool(marks & 2), bool(marks & 4), bool(marks & 8)) if marks else None

    def walk(self, pid: int, address: int) -> Optional[List[TableEntry]]:
        """The entries of page tables that the walk of an address reads, from the root on; None where there is no such process.

        The last of them is a leaf, or is not valid.
        """
        at = _Walk()
        with self._lock:
            if _library.xv6_raw_walk(self._open(), _number(pid), _number(address, 64), at):
                return None
        return [TableEntry(2 - step, address >> 30 - 9 * step & 511, at.entries[step]) for step in range(at.count)]

    def page_table(self, pid: int) -> Optional[PageTable]:
        """The walks of all pages of a process; None where there is no such process."""
        with self._lock:
            process = self.process(pid)
            if process is None:
                return None
            walks = (self.walk(pid, address) or [] for address in range(0, process.size, PAGE_SIZE))
            return PageTable(pid, tuple(tuple(walk) for walk in walks))

    def _asked(self, name: str) -> int:
        """What an export that takes the machine alone returns."""
        with self._lock:
            return int(getattr(_library, "xv6_raw_" + name)(self._open()))

    @property
    def idle(self) -> bool:
        """Whether no process runs or is ready, so that a step changes nothing."""
        return bool(self._asked("is_idle"))

    @property
    def free_frames(self) -> int:
        """How many frames are free."""
        return self._asked("free_frames")

    @property
    def ticks(self) -> int:
        """How many timer ticks the machine has had since it started, modulo 2^32: what uptime returns."""
        return self._asked("ticks")

    @property
    def coming_pid(self) -> int:
        """The pid that the next fork gives, if it gives one."""
        return self._asked("coming_pid")

    @property
    def free_space(self) -> Space:
        """What is free on the disk, as a save would leave it now; the machine goes on, and a copy of it is saved."""
        return self.image().free

    # ---- files

    def stat(self, where: Union[int, str]) -> Node:
        """The node with a path or a number. FileNotFoundError where there is none."""
        told = _Stat()
        with self._lock:
            number = where if isinstance(where, int) else self._find(where)
            _raise_for(_library.xv6_raw_stat(self._open(), _number(number, 64), told))
        if not told.kind:
            raise FileNotFoundError(where)
        return Node(number, _KINDS[told.kind], told.links, told.size)

    def read(self, where: Union[int, str]) -> bytes:
        """All bytes of the file or directory with a path or a number; none of a device. FileNotFoundError where there is none."""
        with self._lock:
            parts: List[bytes] = []
            number, count, at = self.stat(where).number, ctypes.c_size_t(), 0
            while True:
                _raise_for(_library.xv6_raw_read(self._open(), number, at, self._room, len(self._room), count))
                if not count.value:
                    return b"".join(parts)
                parts.append(ctypes.string_at(self._room, count.value))
                at += count.value

    def files(self) -> Dict[str, Node]:
        """All files, directories and devices, by their paths."""
        with self._lock:
            found: Dict[str, Node] = {"/": self.stat(_ROOT)}
            left = ["/"]
            while left:
                above = left.pop()
                for name, number in self._names(found[above].number):
                    if name not in (".", ".."):
                        path = above + name if above == "/" else f"{above}/{name}"
                        found[path] = self.stat(number)
                        if found[path].kind == "directory":
                            left.append(path)
            return dict(sorted(found.items()))

    def _names(self, directory: int) -> List[Tuple[str, int]]:
        data = self.read(directory)
        records = (data[at:at + 16] for at in range(0, len(data) - 15, 16))
        named = ((record[2:].split(b"\0")[0], int.from_bytes(record[:2], "little")) for record in records)
        return [(os.fsdecode(name), number) for name, number in named if number]

    def _find(self, path: str) -> int:
        number = _ROOT
        for name in filter(None, path.split("/")):
            there = dict(self._names(number)) if self.stat(number).kind == "directory" else {}
            if name not in there:
                raise FileNotFoundError(path)
            number = there[name]
        return number


def _pids(holders: Sequence[Tuple[int, int]]) -> Tuple[int, ...]:
    """The pids of those who hold something, each once."""
    return tuple(dict.fromkeys(pid for pid, _descriptor in holders))


def _is_wanted(event: Event, call: Optional[str], fault: bool, exit: bool) -> bool:
    """Whether `until` was to run to an event."""
    if isinstance(event, Call):
        return call in ("any", event.name)
    return (fault and isinstance(event, Fault)) or (exit and isinstance(event, Exit))


def _number(number: int, bits: int = 32) -> int:
    """A number that the library takes: ctypes would cut one that is too large."""
    if not 0 <= number < 1 << bits:
        raise ValueError(f"{number} is not from 0 to {(1 << bits) - 1}")
    return number


def _raise_for(number: int) -> None:
    if number:
        raise Halted(number)
