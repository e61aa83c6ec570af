#!/usr/bin/env python3
"""terminal.py PROGRAM IMAGE: sessions at a pseudo-terminal, as `make live` has them: ^A x, ^C, keys while a program spins, lines that
come slowly, a program that crashes, lines that are edited, a terminal that is closed, input from a pipe, and standard input that gives errors or doesn't wait. The terminal is set back exactly, and each record replays to the same console."""
import os
import pty
import re
import select
import shutil
import signal
import struct
import subprocess
import sys
import tempfile
import termios
import time

if len(sys.argv) != 3 or "--help" in sys.argv:
    sys.exit(__doc__)
PROGRAM, IMAGE = (os.path.abspath(path) for path in sys.argv[1:3])
TOP = os.path.dirname(os.path.dirname(os.path.abspath(__file__)))
FRAMES = ["--frames", "4096"]

# Says six times that it is there, each time after a second of work or so.
SLOW = """li s1, 6
line: li s0, 20000000
again: addi s0, s0, -1
bne s0, zero, again
li a0, 1
la a1, there
li a2, 6
li a7, 16
ecall
addi s1, s1, -1
bne s1, zero, line
li a0, 0
li a7, 2
ecall
there: .ascii "there\\n"
"""

# Works for some seconds, and then says so.
SPIN = """li s0, 400000000
again: addi s0, s0, -1
bne s0, zero, again
li a0, 1
la a1, done
li a2, 5
li a7, 16
ecall
li a0, 0
li a7, 2
ecall
done: .ascii "done\\n"
"""


# Loads from where there is no page, and what is printed of that.
CRASH = """lui a0, 0x7000
ld a1, 8(a0)
"""
FAULT = b"pid 3 (crash): load from 0x7000008 at pc 0x4 in main+0x4: the process has no page there\n"


def symbol_file(name, size):
    """A program file that has nothing but one symbol, a function at address 0."""
    names = b"\0" + name + b"\0"
    symbol = struct.pack("<IBBHQQ", 1, 0x12, 0, 1, 0, size)
    header = b"\x7fELF\x02\x01\x01".ljust(16, b"\0") + struct.pack("<HHIQQQIHHHHHH", 2, 243, 1, 0, 0, 64, 0, 64, 0, 0, 64, 2, 0)
    sections = struct.pack("<IIQQQQIIQQ", 0, 2, 0, 0, 192, 24, 1, 0, 8, 24)
    sections += struct.pack("<IIQQQQIIQQ", 0, 3, 0, 0, 216, len(names), 0, 0, 1, 0)
    return header + sections + symbol + names


class Session:
    """A session at a pseudo-terminal of its own."""

    def __init__(self, folder, image, start=None, symbols=None, edits=False):
        self.image = start or image
        self.record, self.told = os.path.join(folder, "record"), os.path.join(folder, "told")
        self.console = b""
        self.lead, self.follow = pty.openpty()
        self.settings = termios.tcgetattr(self.follow)
        with open(self.told, "wb") as told:
            self.child = subprocess.Popen(
                [os.path.join(TOP, "tools", "live.sh"), PROGRAM, image, self.record, *([start] if start else [])],
                stdin=self.follow, stdout=self.follow, stderr=self.follow if symbols or edits else told, preexec_fn=self.own_terminal,
                env={**os.environ, "SYMBOLS": symbols or "", "EDIT": "1" if edits else ""},
            )

    def own_terminal(self):
        os.setsid()
        os.close(os.open(os.ttyname(self.follow), os.O_RDWR))

    def read(self, seconds):
        end = time.time() + seconds
        while time.time() < end:
            if select.select([self.lead], [], [], 0.05)[0]:
                self.console += os.read(self.lead, 4096).replace(b"\r\n", b"\n")

    def until(self, text, seconds=20):
        end = time.time() + seconds
        while text not in self.console and time.time() < end:
            self.read(0.1)
        assert text in self.console, (text, self.console)

    def type(self, keys):
        os.write(self.lead, keys)

    def wait(self):
        for _ in range(200):
            if self.child.poll() is not None:
                return self.child.returncode
            self.read(0.1)
        raise AssertionError(("no end", self.console))

    def ends(self, status):
        assert self.wait() == status, (self.child.returncode, self.console)
        self.read(0.2)
        assert termios.tcgetattr(self.follow) == self.settings, "the terminal is not set back"

    def replay(self):
        """What the record prints, which the session has begun with."""
        done = subprocess.run([PROGRAM, "run", *FRAMES, self.image, self.record], capture_output=True)
        assert self.console.startswith(done.stdout), (done.stdout, self.console)
        return done.stdout


def screen(console):
    """What a terminal shows of bytes that move the cursor back in its line, and blank the line from the cursor on."""
    lines, column = [b""], 0
    for part in re.findall(rb"\x1b\[K|.", console, re.DOTALL):
        line = lines[-1]
        if part == b"\n":
            lines, column = lines + [b""], 0
        elif part == b"\b":
            column -= 1
        elif part == b"\x1b[K":
            lines[-1] = line[:column]
        else:
            lines[-1], column = line[:column] + part + line[column + 1:], column + 1
    return b"\n".join(lines)


def with_program(folder, name, text):
    """An image with the user programs and one more."""
    for file in os.listdir(os.path.join(TOP, "out", "user")):
        shutil.copy(os.path.join(TOP, "out", "user", file), folder)
    with open(os.path.join(TOP, "user", "manifest")) as manifest, open(os.path.join(folder, "manifest"), "w") as wider:
        wider.write(manifest.read() + f"file /{name} {name}\n")
    with open(os.path.join(folder, name + ".s"), "w") as file:
        file.write(text)
    subprocess.run([PROGRAM, "asm", name + ".s", name], cwd=folder, check=True)
    subprocess.run([PROGRAM, "mkfs", "manifest", "image"], cwd=folder, check=True)
    return os.path.join(folder, "image")


def leave(folder):
    session = Session(folder, IMAGE)
    session.until(b"$ ")
    session.type(b"echo hi | cat\n")
    session.until(b"hi\n$ ")
    session.type(b"\x10")
    session.read(0.5)
    session.type(b"\x01x")
    session.ends(0)
    with open(session.told) as told:
        lines = told.read().splitlines()
    assert lines[-1] == "running" and lines[-2].startswith("xv6 run --frames 4096 "), lines
    assert any(line.startswith("1 sleep ") for line in lines), lines
    assert session.replay() == session.console, session.console


def keep(folder):
    """What a session writes is there in the next one, and its record replays from the image as it was before; ^C keeps nothing."""
    image, start = os.path.join(folder, "image"), os.path.join(folder, "start")
    shutil.copy(IMAGE, image)
    session = Session(folder, image, start)
    session.until(b"$ ")
    session.type(b"echo kept > note\n")
    session.until(b"note\n$ ")
    session.type(b"\x01x")
    session.ends(0)
    assert session.replay() == session.console, session.console
    session = Session(folder, image, start)
    session.until(b"$ ")
    session.type(b"cat note\nrm note\n")
    session.until(b"kept\n$ rm note\n$ ")
    session.type(b"\x03")
    session.ends(130)
    done = subprocess.run([PROGRAM, "get", image, "/note", os.path.join(folder, "note")], capture_output=True)
    assert done.returncode == 0, done


def kill(folder):
    session = Session(folder, IMAGE)
    session.until(b"$ ")
    session.type(b"echo seen\n")
    session.until(b"seen\n$ ")
    session.type(b"\x03")
    session.ends(130)
    assert b"seen\n" in session.replay()


def terminate(folder):
    """A signal to the script alone ends a session that waits for keys, within a second."""
    session = Session(folder, IMAGE)
    session.until(b"$ ")
    began = time.time()
    session.child.send_signal(signal.SIGTERM)
    session.ends(143)
    assert time.time() - began < 1, time.time() - began


def spin(folder):
    """Keys are echoed while a program spins, and obeyed after it; ^A x ends a session in which one does."""
    session = Session(folder, with_program(folder, "spin", SPIN))
    session.until(b"$ ")
    session.type(b"spin\n")
    session.until(b"spin\n")
    session.type(b"echo still\n")
    session.until(b"echo still\n", 4)
    assert b"done\n" not in session.console, session.console
    session.until(b"done\n$ still\n$ ")
    session.type(b"spin\n")
    session.until(b"$ spin\n")
    session.type(b"\x01x")
    session.ends(0)
    assert session.replay() == session.console, session.console


def close(folder):
    """A terminal that is closed ends the session, and the record has what was typed."""
    session = Session(folder, IMAGE)
    session.until(b"$ ")
    session.type(b"echo seen\n")
    session.until(b"seen\n$ ")
    os.close(session.follow)
    os.close(session.lead)
    session.child.wait(timeout=20)
    assert b"seen\n" in session.replay()


def hang_up(folder):
    """A terminal that goes while a machine works ends the session within two seconds, also where SIGHUP is ignored."""
    settings = signal.signal(signal.SIGHUP, signal.SIG_IGN)
    try:
        session = Session(folder, with_program(folder, "spin", SPIN))
    finally:
        signal.signal(signal.SIGHUP, settings)
    session.until(b"$ ")
    session.type(b"spin\n")
    session.until(b"spin\n")
    os.close(session.follow)
    os.close(session.lead)
    began = time.time()
    session.child.wait(timeout=20)
    assert time.time() - began < 2, time.time() - began


def errors(folder):
    """An error of standard input is said, status 1; where it doesn't wait for bytes the session does."""
    place = os.open(folder, os.O_RDONLY)
    refused = subprocess.run([PROGRAM, "live", IMAGE], stdin=place, capture_output=True, text=True, timeout=20)
    os.close(place)
    last = refused.stderr.splitlines()[-1]
    assert refused.returncode == 1 and last.startswith("cannot read standard input: "), refused
    reader, writer = os.pipe()
    os.set_blocking(reader, False)
    session = subprocess.Popen([PROGRAM, "live", IMAGE], stdin=reader, stdout=subprocess.PIPE, stderr=subprocess.PIPE)
    time.sleep(0.5)
    assert session.poll() is None, session.stderr.read()
    os.write(writer, b"echo hi\n")
    time.sleep(0.5)
    assert session.poll() is None, session.stderr.read()
    os.close(writer)
    console, told = session.communicate(timeout=20)
    assert session.returncode == 0 and b"hi\n" in console and told == b"running\n", (console, told)


def slow(folder):
    """Lines come as they are printed; ^C loses none that came, and the record has them."""
    image = with_program(folder, "slow", SLOW)
    script = os.path.join(folder, "script")
    with open(script, "w") as text:
        text.write("step 5000\ntype slow\nstep 300000000\n")
    run = subprocess.Popen([PROGRAM, "run", image, script], stdout=subprocess.PIPE, stderr=subprocess.DEVNULL)
    console, times = b"", []
    while console.count(b"there\n") < 3:
        byte = os.read(run.stdout.fileno(), 1)
        assert byte, console
        console += byte
        if console.endswith(b"there\n"):
            times.append(time.time())
    assert min(after - before for before, after in zip(times, times[1:])) > 0.02, times
    run.send_signal(signal.SIGINT)
    console += run.stdout.read()
    assert run.wait() == -signal.SIGINT and console.count(b"there\n") == 3, console
    session = Session(folder, image)
    session.until(b"$ ")
    session.type(b"slow\n")
    session.until(3 * b"there\n")
    # (a busy machine's keyboard is read once a second, and the record is complete up to the last read)
    session.read(1.5)
    session.type(b"\x03")
    session.ends(130)
    assert session.replay().count(b"there\n") >= 3, session.console


def crash(folder):
    """A fault is printed on the terminal where it comes, with the name of its pc, and is not in the record."""
    image, names = with_program(folder, "crash", CRASH), os.path.join(folder, "names")
    os.mkdir(names)
    with open(os.path.join(names, "crash.elf"), "wb") as file:
        file.write(symbol_file(b"main", 64))
    session = Session(folder, image, symbols=names)
    session.until(b"$ ")
    session.type(b"crash\n")
    session.until(b"$ crash\n" + FAULT + b"$ ")
    session.type(b"\x01x")
    session.ends(0)
    session.console = session.console.replace(FAULT, b"")
    assert session.replay().endswith(b"$ crash\n$ "), session.console


def edit(folder):
    """Keys edit a line before the machine gets it; the record has the finished lines alone."""
    session = Session(folder, IMAGE, edits=True)
    session.until(b"$ ")
    session.type(b"echo x one\x1b[D\x1b[D\x1b[D\x1b[D\x7ftwo\x1b[F three\x17\x1b[Hx\x7f\r")
    session.until(b"\ntwo one\n$ ")
    session.type(b"\x1b[A\x1b[D\x17end\r")
    session.until(b"\ntwo end\n$ ")
    session.type(b"lost\x01x")
    session.ends(0)
    session.console = screen(session.console)
    assert session.replay().endswith(b"$ echo two one \ntwo one\n$ echo two end \ntwo end\n$ "), session.console


def pipe(folder):
    record = os.path.join(folder, "record")
    done = subprocess.run([PROGRAM, "live", "--record", record, IMAGE], input=b"echo hi | cat\n", capture_output=True)
    assert done.returncode == 0 and done.stderr.endswith(b"running\n"), done
    again = subprocess.run([PROGRAM, "run", IMAGE, record], capture_output=True)
    assert (again.stdout, again.stderr) == (done.stdout, b"running\n"), again
    for closed in (["sh", "-c", '"$0" live "$1" <&-'], ["sh", "-c", '"$0" live "$1" < /dev/null']):
        none = subprocess.run([*closed, PROGRAM, IMAGE], capture_output=True, timeout=20)
        assert (none.returncode, none.stdout[-2:], none.stderr) == (0, b"$ ", b"running\n"), none
    with open("/dev/full", "w") as full:
        lost = subprocess.run([PROGRAM, "live", IMAGE], input=b"ls\n", stdout=full, stderr=subprocess.PIPE)
    assert (lost.returncode, lost.stderr) == (1, b"halt 3 Console\n"), lost


for part in (leave, keep, kill, terminate, spin, slow, crash, edit, close, hang_up, pipe, errors):
    with tempfile.TemporaryDirectory() as place:
        part(place)
    print(part.__name__, "ok", flush=True)
