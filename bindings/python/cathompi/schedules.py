"""Tries a timer interrupt after each of the next steps, and returns what comes of it."""
from __future__ import annotations

from dataclasses import dataclass
from typing import Callable, Dict, Hashable, Iterator, List, Optional, TYPE_CHECKING, Union

if TYPE_CHECKING:
    from . import Machine

__all__ = ["Outcome", "schedules"]

Until = Union[None, str, bytes, Callable[["Machine"], Hashable]]


@dataclass(frozen=True)
class Outcome:
    """What some of the schedules came to."""

    value: Hashable
    """What `until` returned."""
    steps: List[Optional[int]]
    """After how many steps the tick came, for each of these schedules; None: without a tick."""
    script: str
    """The first of these schedules, from the boot on, as `xv6 run` takes it."""


def _reached(machine: Machine, until: Until) -> Hashable:
    if until is None:
        machine.run()
        return machine.console()
    if isinstance(until, (str, bytes)):
        return machine.run_until(until)
    return until(machine)


def _tries(machine: Machine, most: int) -> Iterator[Optional[int]]:
    """Walks a machine on, and returns after which steps a process runs."""
    for at in range(most):
        if machine.running is not None:
            yield at
        if machine.run(1) == 0:
            return


def schedules(machine: Machine, until: Until = None, most: int = 20_000) -> List[Outcome]:
    """The outcomes of a machine's schedules: without a tick, and with one after each of the next steps, at most `most`.

    `until` takes a copy on and returns the outcome: a function of it, or a text up to which it runs; none: it runs until no process
    runs or is ready, and the outcome is what it printed. The machine itself stays where it is. The outcome of the schedule without a
    tick is the first; the others come in the order in which they were found.
    """
    found: Dict[Hashable, Outcome] = {}

    def note(copy: Machine, at: Optional[int]) -> None:
        with copy:
            value = _reached(copy, until)
            found.setdefault(value, Outcome(value, [], copy.script())).steps.append(at)

    note(machine.copy(), None)
    with machine.copy() as walker:
        for at in _tries(walker, most):
            copy = walker.copy()
            copy.tick()
            note(copy, at)
    return list(found.values())
