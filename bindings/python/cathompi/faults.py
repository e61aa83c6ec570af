"""Why the instruction at a process's pc ends it, in words."""
from __future__ import annotations

from typing import TYPE_CHECKING, Optional

from .shown import REGISTERS

if TYPE_CHECKING:
    from . import Machine, Process

__all__ = ["fault_of"]

PAGE_SIZE = 4096
_MASK = (1 << 64) - 1
_LOAD, _STORE, _JUMP, _JUMP_BY, _BRANCH = 0x03, 0x23, 0x6F, 0x67, 0x63
_EBREAK = 0x00100073


def _field(word: int, at: int, bits: int) -> int:
    return word >> at & (1 << bits) - 1


def _signed(value: int, bits: int) -> int:
    return value - (1 << bits) if value >> bits - 1 & 1 else value


def _page_fault(machine: Machine, process: Process, address: int, access: str) -> Optional[str]:
    """Why an access to an address fails; None where it does not."""
    page = machine.page(process.pid, address // PAGE_SIZE)
    if page is None:
        return f"the process has no page there, its {-(-process.size // PAGE_SIZE)} pages end at {process.size:#x}"
    if not page.readable:
        return "the page there is a guard that no program may touch"
    may = {"read": page.readable, "written": page.writable, "executed": page.executable}[access]
    return None if may else f"the page there can't be {access}"


def _access_fault(machine: Machine, process: Process, word: int) -> Optional[str]:
    is_store = word & 0x7F == _STORE
    offset = _field(word, 25, 7) << 5 | _field(word, 7, 5) if is_store else _field(word, 20, 12)
    base = _field(word, 15, 5)
    address = process.registers[base] + _signed(offset, 12) & _MASK
    size = 1 << _field(word, 12, 2)
    what = f"a {'store' if is_store else 'load'} of {size} bytes {'to' if is_store else 'from'} {address:#x}, by {REGISTERS[base]}"
    if address % size:
        return f"{what}: it is no multiple of {size}"
    why = _page_fault(machine, process, address, "written" if is_store else "read")
    return why and f"{what}: {why}"


def _target(process: Process, word: int) -> Optional[int]:
    """Where a jump goes, or a branch that may be taken; None for another instruction."""
    kind = word & 0x7F
    if kind == _JUMP:
        offset = _field(word, 31, 1) << 20 | _field(word, 12, 8) << 12 | _field(word, 20, 1) << 11 | _field(word, 21, 10) << 1
        return process.pc + _signed(offset, 21) & _MASK
    if kind == _JUMP_BY:
        return process.registers[_field(word, 15, 5)] + _signed(_field(word, 20, 12), 12) & _MASK & ~1
    if kind == _BRANCH:
        offset = _field(word, 31, 1) << 12 | _field(word, 7, 1) << 11 | _field(word, 25, 6) << 5 | _field(word, 8, 4) << 1
        return process.pc + _signed(offset, 13) & _MASK
    return None


def fault_of(machine: Machine, process: Process) -> str:
    """Why a process ended at its pc by a fault, in words. Its memory is still there: nobody has waited for it."""
    page, at = machine.page(process.pid, process.pc // PAGE_SIZE), process.pc % PAGE_SIZE
    why = _page_fault(machine, process, process.pc, "executed")
    if why is not None or page is None:
        return f"no instruction can be fetched at {process.pc:#x}: {why}"
    word = int.from_bytes(page.data[at:at + 4], "little")
    if word == _EBREAK:
        return "ebreak, and no debugger looks"
    if word & 0x7F in (_LOAD, _STORE):
        fault = _access_fault(machine, process, word)
        if fault is not None:
            return fault
    target = _target(process, word)
    if target is not None and target % 4:
        return f"a jump to {target:#x}, which is no multiple of 4"
    return f"{word:#010x} is no instruction"
