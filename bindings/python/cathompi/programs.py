"""The names of the programs that processes have, by the files whose bytes they have; a machine keeps no names."""
from __future__ import annotations

from typing import TYPE_CHECKING, Dict, Iterator, List, Optional, Tuple

if TYPE_CHECKING:
    from . import Machine

__all__ = ["Programs"]

_PAGE = 4096
_HEAD, _PART = 64, 56
_LEAST = 16
"""How many bytes have to be the same."""


def _first_part(data: bytes) -> Optional[Tuple[int, bytes]]:
    """The first part that a program's file loads: the number of its page, and its bytes there. None where the file is no program."""
    def number(at: int, size: int = 8) -> int:
        return int.from_bytes(data[at:at + size], "little")

    if len(data) < _HEAD or data[:4] != b"\x7fELF":
        return None
    for at in range(number(32), number(32) + _PART * number(56, 2), _PART):
        if at + _PART <= len(data) and number(at, 4) == 1:
            offset, address, size = number(at + 8), number(at + 16), number(at + 32)
            return address // _PAGE, data[offset:offset + min(size, _PAGE)]
    return None


def _same(one: bytes, other: bytes) -> int:
    """How many bytes are the same, up to the first that differs."""
    return next((at for at, (left, right) in enumerate(zip(one, other)) if left != right), min(len(one), len(other)))


class Programs:
    """The programs on a machine's disk, as they are now."""

    def __init__(self, machine: Machine) -> None:
        self._machine = machine
        self._found: List[Tuple[str, int, bytes]] = list(self._on_disk())

    def _on_disk(self) -> Iterator[Tuple[str, int, bytes]]:
        for path, node in self._machine.files().items():
            part = _first_part(self._machine.read(node.number)) if node.kind == "file" else None
            if part is not None:
                yield path.rsplit("/", 1)[-1], *part

    def name(self, pid: int) -> Optional[str]:
        """The name of the file of which a process has the most bytes; None where it has none, or only a few."""
        pages: Dict[int, bytes] = {}
        best, most = None, _LEAST - 1
        for name, number, data in self._found:
            if number not in pages:
                page = self._machine.page(pid, number)
                pages[number] = page.data if page is not None else b""
            same = _same(data, pages[number])
            if same > most:
                best, most = name, same
        return best
