"""Runs commands, looks at what they print, and returns what they took."""

import dataclasses
import os
import pathlib
import re
import subprocess
import tempfile
import time


class Failed(Exception):
    """A command didn't do what it has to do."""


@dataclasses.dataclass(frozen=True)
class Command:
    """A command that is ready to be run in a folder: what it has to write to standard output, as bytes or as a regular expression,
    what standard error has to be, as one, and a command that has to succeed after it, if there is one."""

    words: list
    folder: pathlib.Path
    stdout: "bytes | re.Pattern" = b""
    stderr: str = ""
    then: "Command | None" = None


@dataclasses.dataclass(frozen=True)
class Took:
    """What a run took: seconds of processor time, and KiB of memory at most."""

    seconds: float
    peak: int


def peak_of(pid):
    """The peak memory of a running process so far, in KiB; 0 once it has ended."""
    status = pathlib.Path(f"/proc/{pid}/status").read_text().splitlines()
    return sum(int(line.split()[1]) for line in status if line.startswith("VmHWM:"))


def is_printed(wanted, printed):
    """Whether what was printed is what has to be."""
    return bool(wanted.fullmatch(printed)) if isinstance(wanted, re.Pattern) else printed == wanted


def run(command):
    """Runs a command once, and returns what it took where it did what it has to do."""
    with tempfile.TemporaryFile() as stdout, tempfile.TemporaryFile() as stderr:
        child = subprocess.Popen(command.words, cwd=command.folder, stdin=subprocess.DEVNULL, stdout=stdout, stderr=stderr)
        ended, peak, pause = 0, 0, 0.0005
        # The peak that the system counts for an ended process is no less than that of this one.
        while not ended:
            time.sleep(pause)
            pause = min(2 * pause, 0.02)
            peak = max(peak, peak_of(child.pid))
            ended, status, used = os.wait4(child.pid, os.WNOHANG)
        child.returncode = os.waitstatus_to_exitcode(status)
        stdout.seek(0)
        stderr.seek(0)
        printed, told = stdout.read(), stderr.read().decode(errors="replace").strip()
    line = " ".join(str(word) for word in command.words)
    if child.returncode or not re.fullmatch(command.stderr, told):
        raise Failed(f"{line}: status {child.returncode}: {told}")
    if not is_printed(command.stdout, printed):
        raise Failed(f"{line}: printed {printed[:200]!r} .., and has to print {str(command.stdout)[:200]} ..")
    if command.then:
        run(command.then)
    return Took(used.ru_utime + used.ru_stime, peak)


def compare(commands, turns):
    """Runs the commands turn by turn, and returns of each the least time and the most memory that it took."""
    runs = [[run(command) for command in commands] for _ in range(turns)]
    return [Took(min(one.seconds for one in took), max(one.peak for one in took)) for took in zip(*runs)]


# By how many seconds two starts of a program may differ.
NOISE = 0.001


def less(took, start):
    """What a run took without its start: at least what two starts may differ by."""
    return Took(max(took.seconds - start.seconds, NOISE), took.peak)


def compare_row(row, place, turns):
    """What a row's job and those beside it take, without the starts that are to be taken off."""
    starts = [beside.start for beside in row.beside if beside.start]
    jobs = [row.job, *(beside.job for beside in row.beside), *starts]
    took = compare([job.command(place) for job in jobs], turns)
    of_start = iter(took[1 + len(row.beside) :])
    return [took[0], *(less(it, next(of_start)) if beside.start else it for beside, it in zip(row.beside, took[1:]))]
