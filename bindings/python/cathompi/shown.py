"""How a notebook shows machines, processes, pages, page tables and pipes."""
from __future__ import annotations

from html import escape
from typing import TYPE_CHECKING, Dict, List, Optional, Sequence, Tuple

if TYPE_CHECKING:
    from . import Page, PageTable, Pipe, Process, TableEntry

__all__ = ["machine_html", "page_html", "page_table_html", "pipe_html", "process_html", "tree_svg"]

REGISTERS = "zero ra sp gp tp t0 t1 t2 s0 s1 a0 a1 a2 a3 a4 a5 a6 a7 s2 s3 s4 s5 s6 s7 s8 s9 s10 s11 t3 t4 t5 t6".split()
_ROW = 16
_WIDTH, _HEIGHT, _INDENT = 260, 24, 24


def _table(head: Sequence[str], rows: Sequence[Sequence[str]]) -> str:
    cells = "".join(f"<th>{escape(it)}</th>" for it in head)
    body = "".join("<tr>" + "".join(f"<td>{escape(it)}</td>" for it in row) + "</tr>" for row in rows)
    return f"<table><thead><tr>{cells}</tr></thead><tbody>{body}</tbody></table>"


def state_text(process: Process) -> str:
    """What a process is doing, in words."""
    if process.state == "waiting":
        return f"waits in {process.call}"
    return f"ended with {process.status}" if process.state == "ended" else process.state


def machine_html(processes: Sequence[Process], names: Sequence[Optional[str]], waits: Sequence[Optional[str]], counts: str) -> str:
    """The processes, each with what it waits for, and the machine's counts."""
    rows = []
    for it, name, what in zip(processes, names, waits):
        state = f"{state_text(it)} for {what}" if what is not None else state_text(it)
        rows.append((str(it.pid), name or "", str(it.parent or ""), state, hex(it.pc), str(it.size)))
    return _table(("pid", "program", "parent", "state", "pc", "bytes"), rows) + f"<p>{escape(counts)}</p>"


def process_html(process: Process) -> str:
    """The registers, four in a row."""
    named = [f"{name} {value:x}" for name, value in zip(REGISTERS, process.registers)]
    rows = [named[at:at + 4] for at in range(0, len(named), 4)]
    return f"<p>process {process.pid}: {escape(state_text(process))}, pc {process.pc:#x}</p>" + _table(("",) * 4, rows)


def page_html(page: Page) -> str:
    """The bytes, sixteen in a row."""
    rows: List[Tuple[str, ...]] = []
    for at in range(0, len(page.data), _ROW):
        part = page.data[at:at + _ROW]
        rows.append((f"{at:03x}", part.hex(" "), "".join(chr(byte) if 32 <= byte < 127 else "." for byte in part)))
    return f"<p>{page.marks}</p>" + _table(("", "", ""), rows)


def _entry_text(entry: TableEntry) -> str:
    """An entry of a page table: which of its table it is, its marks, and the frame that it names."""
    return f"{entry.index}: {entry.marks} {entry.frame:#x}" if entry.word & 1 else f"{entry.index}: {entry.marks}"


def page_table_html(table: PageTable) -> str:
    """A page in each row: its number, and the entries of the three tables that lead to it."""
    rows = []
    for number, walk in enumerate(table.walks):
        texts = [_entry_text(entry) for entry in walk]
        rows.append((str(number), hex(number << 12), *texts, *[""] * (3 - len(texts))))
    return f"<p>process {table.pid}</p>" + _table(("page", "address", "level 2", "level 1", "level 0"), rows)


def _holders_text(holders: Sequence[Tuple[int, int]]) -> str:
    return ", ".join(f"process {pid} (descriptor {descriptor})" for pid, descriptor in holders) or "nobody"


def pipe_html(pipe: Pipe, room: int) -> str:
    """Who writes, the bytes in between, and who reads."""
    between = f"{ascii(pipe.data)[1:]}, {len(pipe.data)} of {room} bytes"
    row = (_holders_text(pipe.writers), f"→ {between} →", _holders_text(pipe.readers))
    return f"<p>pipe {pipe.number}</p>" + _table(("write end", "bytes", "read end"), [row])


def tree_svg(processes: Sequence[Process], names: Sequence[Optional[str]]) -> str:
    """The processes as a tree, each below its parent."""
    depths: Dict[int, int] = {}
    rows: List[str] = []
    programs = {process.pid: name or "" for process, name in zip(processes, names)}

    def add(process: Process, depth: int) -> None:
        depths[process.pid] = depth
        x, y = 8 + _INDENT * depth, 18 + _HEIGHT * len(rows)
        line = f'<path d="M{x - 14} {y - 18}v13h10" fill="none" stroke="currentColor"/>' if depth else ""
        text = " ".join(filter(None, (str(process.pid), programs[process.pid], state_text(process))))
        rows.append(f'{line}<text x="{x}" y="{y}" fill="currentColor">{escape(text)}</text>')
        for child in processes:
            if child.parent == process.pid and child.pid not in depths:
                add(child, depth + 1)

    pids = {it.pid for it in processes}
    for process in processes:
        if process.parent not in pids:
            add(process, 0)
    width = _WIDTH + _INDENT * max(depths.values(), default=0)
    return f'<svg xmlns="http://www.w3.org/2000/svg" width="{width}" height="{_HEIGHT * len(rows) + 6}" font-size="14">{"".join(rows)}</svg>'
