"""What happens in a machine, step by step: calls, faults, exits, and what the console prints."""
from __future__ import annotations

from dataclasses import dataclass
from typing import TYPE_CHECKING, Iterator, List, Optional, Tuple, Union

from .faults import fault_of

if TYPE_CHECKING:
    from . import Machine, NextFault, Process

__all__ = ["Call", "Event", "Exit", "Fault", "Output", "events_of"]

CALLS = dict(enumerate(
    "fork exit wait pipe read kill exec fstat chdir dup getpid sbrk sleep uptime open write mknod unlink link mkdir close".split(), 1
))
_TAKES = {
    "exit": 1, "wait": 1, "pipe": 1, "read": 3, "kill": 1, "exec": 2, "fstat": 2, "chdir": 1, "dup": 1, "sbrk": 1, "sleep": 1, "open": 2,
    "write": 3, "mknod": 3, "unlink": 1, "link": 2, "mkdir": 1, "close": 1,
}
_A0, _A7 = 10, 17


@dataclass(frozen=True)
class Call:
    """A process calls the kernel with its next instruction."""

    at: int
    """How many steps the machine had taken before that instruction, counted from where the events begin."""
    pid: int
    name: str
    """As "fork"; the number where the kernel has no such call."""
    arguments: Tuple[int, ...]


@dataclass(frozen=True)
class Fault:
    """An instruction ended its process."""

    at: int
    pid: int
    pc: int
    reason: str
    """Why, in words."""
    cause: str
    """As "load page fault", by the RISC-V manual."""
    address: int
    """The target of a jump, the address of a load or a store, else the pc."""


@dataclass(frozen=True)
class Exit:
    """A process ended: by `exit`, by a fault, or since it was killed."""

    at: int
    pid: int
    status: int


@dataclass(frozen=True)
class Output:
    """The console printed bytes. `console` and `run_until` return them, too."""

    at: int
    data: bytes


Event = Union[Call, Fault, Exit, Output]


def _signed(value: int) -> int:
    """The low 32 bits of a register, as a signed number."""
    value &= 0xFFFFFFFF
    return value - (1 << 32) if value >> 31 else value


def _call_of(process: Process, at: int) -> Call:
    number = _signed(process.registers[_A7])
    name = CALLS.get(number, str(number))
    return Call(at, process.pid, name, process.registers[_A0:_A0 + _TAKES.get(name, 0)])


def _exit(machine: Machine, pid: int, at: int) -> Optional[Exit]:
    """The end of a process that may have come to it; None where it goes on."""
    now = machine.process(pid)
    if now is not None and now.state != "ended":
        return None
    return Exit(at, pid, now.status if now is not None and now.status is not None else -1)


def _ended(machine: Machine, process: Process, fault: Optional[NextFault], at: int) -> Iterator[Event]:
    """What a process that no longer runs, and was not in a call that goes on, came to."""
    end = _exit(machine, process.pid, at)
    if end is None:
        return
    if fault is not None and not process.killed:
        yield Fault(at, process.pid, process.pc, fault_of(machine, process), fault.cause, fault.address)
    yield end


def _killed(machine: Machine) -> List[int]:
    """The pids of processes that were killed and end at their next turn."""
    return [it.pid for it in machine.processes() if it.killed and it.state != "ended"]


def events_of(machine: Machine, most: int) -> Iterator[Event]:
    """The events of the next `most` steps, until no process runs or is ready. Where the machine stops, that is raised after them.

    Instructions up to a call or a fault are taken in one go: none of them is an event.
    """
    machine._printed()
    at = 0
    while at < most:
        at += machine.compute(most - at)
        if at == most:
            return
        pid = machine.running
        process = machine.process(pid) if pid else None
        fault = machine.fault(pid) if pid else None
        killed = _killed(machine) if process is None else []
        if process is not None and fault is None:
            yield _call_of(process, at)
        try:
            if machine.run(1) == 0:
                return
        except Exception:
            if process is not None:
                yield from _ended(machine, process, fault, at)
            yield from filter(None, (_exit(machine, it, at) for it in killed))
            raise
        data = machine._printed()
        if data:
            yield Output(at, data)
        if process is not None and machine.running != process.pid:
            yield from _ended(machine, process, fault, at)
        yield from filter(None, (_exit(machine, it, at) for it in killed))
        at += 1
