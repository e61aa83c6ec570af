#!/usr/bin/env python3
"""test.py FOLDER PROGRAM IMAGE: the package in a folder, 100 random sessions that are copied, and 100 whose console has the bytes of `xv6 run`, whose
end is that of its `--json`, and whose calls, faults and exits are those of `xv6 trace --jsonl`."""
import copy
import doctest
import json
import os
import random
import subprocess
import sys
import tempfile
from concurrent.futures import ThreadPoolExecutor

sys.path.insert(0, os.path.abspath(sys.argv[1]))
import cathompi.images
from cathompi import (
    AssemblyError, BootError, Call, Closed, Error, Exit, Fault, Halted, Image, ImageError, Machine, NotPrinted, NotReached, Output, assemble,
    assemble_exactly, schedules,
)

SEEDS = 100
LINES = ["ls", "echo hi | cat", "mkdir d", "cat init | cat", "rm cat", "ln sh x", "forktest", "kill 2", "echo a b c", "ls | cat", "nope", "\x08\x15x", "\x04"]


def raises(kind, call, *arguments):
    """Whether a call raises an error of this kind."""
    try:
        call(*arguments)
    except kind:
        return True
    return False


def try_session(image):
    """A line at the shell, and what is known of the machine."""
    with Machine(image) as machine:
        assert machine.run_until("$ ") == b"init: starting sh\n$ " and machine.idle
        machine.type("ls\n")
        assert machine.run_until("$ ").split() == b"ls . .. init sh cat echo ls ln rm mkdir kill forktest fill console $".split()
        assert machine.console() == b"" and machine.run() == 0
        first, shell = machine.processes()
        assert (first.pid, first.parent, first.state, first.call, first.status) == (1, 0, "waiting", "wait", None)
        assert (shell.pid, shell.parent, shell.state, shell.call, shell.registers[0]) == (2, 1, "waiting", "read", 0)
        page = machine.page(2, shell.pc // 4096)
        assert page.marks == "rwx" and page.data[shell.pc % 4096 - 4:][:4] == b"\x73\0\0\0" and len(page.data) == 4096
        assert [machine.page(2, number).marks for number in range(3)] == ["rwx", "---", "rw-"]
        assert machine.page(2, shell.size // 4096) is None and machine.process(99) is None
        machine.type("mkdir d\n")
        assert bytes(machine) == b"mkdir d\n$ "
        machine.type("nothing")
        assert raises(NotPrinted, machine.run_until, "$ ") and machine.console() == b"nothing"
        assert raises(NotPrinted, machine.run_until, "x", 0) and raises(ValueError, machine.run_until, "")
        return machine.free_frames


def try_files(image):
    """Paths, and an image that is saved and boots."""
    machine = Machine(image)
    machine.run()
    machine.type("mkdir d\n")
    machine.run()
    machine.type("mkdir d/e\n")
    machine.run()
    files = machine.files()
    assert [path for path, node in files.items() if node.kind == "directory"] == ["/", "/d", "/d/e"]
    assert files["/console"].kind == "device" and files["/init"].links == 1
    assert machine.stat("d/e") == files["/d/e"] == machine.stat(files["/d/e"].number)
    assert machine.read("/init")[:4] == b"\x7fELF" and len(machine.read("init")) == files["/init"].size and machine.read("/console") == b""
    assert all(raises(FileNotFoundError, machine.stat, where) for where in ("none", "init/x", 0, 199))
    saved = machine.save()
    assert len(saved) == len(image) and machine.closed and raises(Closed, machine.run)
    with Machine(saved) as again:
        again.run()
        assert again.files().keys() == files.keys()


def try_errors(image):
    """Each error with its reason."""
    assert raises(BootError, Machine, image[:-1]) and raises(BootError, Machine, b"") and raises(BootError, Machine, image, 63)
    assert raises(ValueError, Machine, image, -1) and raises(ValueError, Machine, image, 1 << 32) and raises(TypeError, Machine, "xv6.img")
    machine = Machine(bytearray(image), 64)
    machine.close()
    machine.close()
    calls = [machine.run, machine.tick, machine.console, machine.processes, machine.files, machine.save, machine.copy, lambda: machine.steps(1)]
    assert all(raises(Closed, call) for call in calls) and raises(Closed, machine.type, "x") and raises(Closed, machine.page, 1, 0)
    with Machine(image) as halting:
        halting.type("kill 1\n")
        try:
            halting.run()
            assert False, "process 1 ended"
        except Halted as error:
            assert error.number == 1 and error.reason == "process 1 ended" and isinstance(error, Error)
        assert halting.process(1).state == "ended" and raises(Halted, halting.run) and len(halting.save()) == len(image)


def replayed(script, image, frames):
    """A machine that plays a script."""
    machine = Machine(image, frames)
    for line in script.splitlines():
        kind, what = line.split(" ")
        if kind == "keys":
            machine.type(bytes.fromhex(what))
        else:
            {"step": machine.steps, "tick": machine.tick}[kind](int(what))
    return machine


def try_events(image):
    """Events come in their order, change nothing of what the machine does, and `until` runs to one of them."""
    with Machine(image) as machine, Machine(image) as plain:
        for one in (machine, plain):
            one.run()
            one.type("echo hi | cat\n")
        happened = list(machine.events())
        plain.run()
        assert told(machine) == told(plain) and machine.console() == plain.console() and machine.script() == plain.script()
        with replayed(machine.script(), image, 256) as again:
            assert told(again) == told(machine)
        assert b"".join(it.data for it in happened if isinstance(it, Output)) == b"hi\n$ "
        assert [it.pid for it in happened if isinstance(it, Exit)] == [3, 4] and not any(isinstance(it, Fault) for it in happened)
        assert [(it.at, it.pid, it.status) for it in killed_shell(image)] == [(420, 3, 0), (421, 2, -1)]
        names = [it.name for it in happened if isinstance(it, Call) and it.pid == 2]
        assert names.count("pipe") == 1 and names.count("fork") == 2 and names[-1] == "read"
        machine.type("ls\n")
        fork = machine.until(call="fork")
        assert fork.name == "fork" and machine.process(2).state == "running" and machine.process(5) is None
        assert machine.until(call="any").pid in (2, 5) and machine.process(5) is not None
        assert machine.until(call="write", pid=5).arguments[0] == 1 and machine.until(exit=True).status == 0
        assert raises(NotReached, lambda: machine.until(fault=True)) and raises(ValueError, machine.until)


def killed_shell(image):
    """The exits of `kill 2`: the shell ends at its turn."""
    with Machine(image) as machine:
        machine.run()
        machine.type("kill 2\n")
        return [event for event in machine.events() if isinstance(event, Exit)]


# Programs that end by a fault, and a part of its reason.
FAULTS = {
    "li t0, 0x5000\nld a0, 0(t0)\n": "a load of 8 bytes from 0x5000, by t0: the process has no page there, its 3 pages end at 0x3000",
    "li t0, 0x1000\nsb zero, 4(t0)\n": "a store of 1 bytes to 0x1004, by t0: the page there is a guard",
    "lw a0, 2(zero)\n": "a load of 4 bytes from 0x2, by zero: it is no multiple of 4",
    "jalr zero, 2(zero)\n": "a jump to 0x2, which is no multiple of 4",
    "li t0, 0x2000\njalr zero, 0(t0)\n": "no instruction can be fetched at 0x2000: the page there can't be executed",
    "ebreak\n": "ebreak",
    ".word 0\n": "0x00000000 is no instruction",
}


def try_faults(program):
    """A fault is given before the end of process 1 is raised, with its reason."""
    for text, wanted in FAULTS.items():
        with tempfile.TemporaryDirectory() as folder:
            for name, content in (("init.s", text), ("manifest", "file /init init\n")):
                with open(os.path.join(folder, name), "w") as file:
                    file.write(content)
            for words in (["asm", "init.s", "init"], ["mkfs", "--size", "64", "--inodes", "16", "manifest", "image"]):
                subprocess.run([program, *words], cwd=folder, check=True)
            with open(os.path.join(folder, "image"), "rb") as file:
                image = file.read()
        with Machine(image, 64) as machine:
            happened = []
            assert raises(Halted, keep, machine.events(), happened)
            fault, end = happened
            assert fault.address in (fault.pc, 0x5000, 0x1004, 0x2, 0x2000) and fault.cause.split()[0] in ("load", "store", "instruction", "illegal", "breakpoint")
            assert fault.reason.startswith(wanted) and end == Exit(fault.at, 1, -1), (text, happened)


def keep(events, kept):
    """Keeps events as they come."""
    for event in events:
        kept.append(event)


def try_looks(image):
    """What processes hold and wait for, what is in a pipe and who holds it, the next fault, and digests."""
    with Machine(image) as machine:
        machine.run()
        assert machine.running is None and machine.pipes == [] and machine.fault(2) is None and machine.waiting(99) is None
        assert (machine.ticks, machine.coming_pid, machine.program(1), machine.program(2), machine.program(99)) == (0, 3, "init", "sh", None)
        waiting, held = machine.waiting(2), machine.descriptors(2)
        assert (waiting.what, waiting.enders) == ("a line of the console", ())
        assert (machine.waiting(1).what, machine.waiting(1).enders) == ("a child that ends", (2,))
        [console] = machine.open_files
        assert console.holders == tuple((pid, number) for pid in (1, 2) for number in range(3)) and console.kind == "console"
        assert (waiting.call, waiting.arguments[0], waiting.done, waiting.since) == ("read", 0, 0, 0)
        assert sorted(held) == [0, 1, 2] and held[0] == held[1] == machine.descriptors(1)[2] and held[0].descriptors == 6
        assert (held[0].kind, held[0].number, held[0].readable) == ("console", machine.stat("/console").number, True)
        assert machine.descriptors(99) == {} and machine.directory(2) == 1 and machine.directory(99) is None
        machine.type("echo hi | cat\n")
        machine.until(call="write", pid=3)
        machine.steps(1)
        [pipe] = machine.pipes
        assert (pipe.data, pipe.readers, pipe.writers) == (b"hi\n", ((4, 3),), ((3, 1),))
        assert all(machine.descriptors(pid)[at].number == pipe.number for pid, at in pipe.readers + pipe.writers)
        twin = machine.copy()
        assert twin.digest == machine.digest
        twin.tick()
        assert twin.digest != machine.digest
        twin.close()
        machine.run()
        assert machine.pipes == [] and machine.coming_pid == 5
        machine.tick(3)
        machine.type("cat | cat\n")
        machine.run()
        reader = machine.waiting(6)
        assert (machine.ticks, reader.what, reader.enders, machine.program(6)) == (3, "bytes in pipe 0", (5,), "cat")
        assert [(it.kind, it.holders) for it in machine.open_files[1:]] == [("read end", ((6, 0),)), ("write end", ((5, 1),))]
        try_space(machine)


def try_space(machine):
    """Two programs wait at a pipe: as they end a directory is made, and takes a block and an inode."""
    before = machine.free_space
    assert before == machine.image().free and machine.waiting(6) is not None
    machine.type("\x04mkdir d\n")
    machine.run()
    assert (before.inodes - machine.free_space.inodes, before.blocks - machine.free_space.blocks) == (1, 1)
    table = machine.page_table(2)
    assert ["u" in walk[-1].marks for walk in table.walks] == [True, False, True] and machine.page_table(99) is None
    assert table.walks[0] == tuple(machine.walk(2, 0)) and machine.free_space.blocks > 1900


def try_stops(image):
    """To an address, by instructions alone, and the same steps in one go."""
    with Machine(image) as machine, Machine(image) as plain:
        for one in (machine, plain):
            one.run()
            one.type("ls\n")
        assert machine.until(call="exec").pid == machine.running == 3
        assert machine.run_to(0, pid=3) == 1 and machine.process(3).pc == 0 and raises(NotReached, machine.run_to, 0x123456)
        plain.run()
        assert machine.digest == plain.digest and machine.compute() == 0 and machine.script() == plain.script()
        assert raises(ValueError, machine.compute, -1) and raises(ValueError, machine.compute, 1, [-1])


def try_schedules(image):
    """A tick after each step: the same is printed, and the machine stays where it is; each script replays its outcome."""
    with Machine(image) as machine:
        machine.run()
        machine.type("echo hi | cat\n")
        before = told(machine)
        outcomes = schedules(machine, most=300)
        assert told(machine) == before and outcomes[0].steps[0] is None and sum(len(it.steps) for it in outcomes) > 250
        assert [it.value for it in outcomes] == [b"init: starting sh\n$ echo hi | cat\nhi\n$ "]
        states = schedules(machine, lambda copy: copy.run(500) and str(told(copy)), most=50)
        assert len(states) > 1
        for outcome in states:
            with replayed(outcome.script, image, 256) as again:
                assert str(told(again)) == outcome.value


def try_pictures(image):
    """What a notebook shows."""
    with Machine(image) as machine:
        machine.run()
        shown = machine._repr_html_()
        assert "<td>sh</td>" in shown and "waits in read for a line of the console" in shown and "tick 0; the next fork gives process 3" in shown
        assert f"{machine.free_frames} frames, {machine.free_space.blocks} blocks and {machine.free_space.inodes} inodes free" in shown
        assert "<table>" in machine.process(2)._repr_html_() and "rwx" in machine.page(2, 0)._repr_html_()
        assert machine.tree._repr_svg_().count("<text") == 2 and ">2 sh waits in read<" in machine.tree._repr_svg_()
        assert machine.page_table(2)._repr_html_().count("<tr>") == 4 and "2: da-u-wrv 0x8" in machine.page_table(2)._repr_html_()
        machine.type("echo hi | cat\n")
        machine.until(call="write", pid=3)
        machine.steps(1)
        [pipe] = machine.pipes
        assert "process 3 (descriptor 1)" in pipe._repr_html_() and "hi\\n&#x27;, 3 of 512 bytes" in pipe._repr_html_()
    assert "closed" in machine._repr_html_()


HELLO = b"""
_start:
    li a0, 1
    la a1, text
    li a2, 3
    li a7, 16
    ecall
    li a0, 5
    li a7, 2
    ecall
text:
    .ascii "hi\\n"
"""


def run_as(program, *words):
    """What the program does with these words: its status, and its standard error."""
    ran = subprocess.run([program, *words], capture_output=True)
    return ran.returncode, ran.stderr


def try_images(program, path, image):
    """Images in memory are those of the program's commands, byte for byte, and so are their refusals."""
    own = Image.from_dir(os.path.join(os.path.dirname(__file__), "../../user"))
    assert bytes(own) == image and own.check() == Image(image).check() and own.files().keys() == Machine(image).files().keys() - {"/", "/console"}
    with tempfile.TemporaryDirectory() as folder:
        other, text, file = (os.path.join(folder, name) for name in ("img", "hi.s", "hi"))
        own.write(other)
        with open(text, "wb") as out:
            out.write(HELLO)
        assert run_as(program, "as", text, "-o", file)[0] == 0 and run_as(program, "put", other, "/hi", file)[0] == 0
        own["/hi"] = assemble(HELLO)
        with open(file, "rb") as made:
            assert own["/hi"] == made.read() == assemble(HELLO).file
        assert bytes(own) == bytes(Image.read(other)) and len(own["/hi"]) == own.files()["/hi"].size
        listed = subprocess.run([program, "ls", other, "/"], capture_output=True, check=True).stdout.decode().splitlines()
        assert [line.split()[0] for line in listed] == [entry.name for entry in own.list()]
    with Machine(own) as machine:
        machine.run_until("$ ")
        machine.type("hi\n")
        assert machine.until(exit=True).status == 5 and machine.run_until("$ ").endswith(b"hi\n$ ")
        assert [entry.level for entry in machine.walk(2, 0)] == [2, 1, 0] and machine.walk(2, 0)[-1].is_leaf and machine.walk(99, 0) is None
        assert machine.image().files().keys() >= {"/hi", "/console"} and machine.walk(2, 1 << 38) == []
    try_refusals(own)
    assert doctest.testmod(cathompi.images).failed == 0


def refused(number, call, *arguments):
    """Whether a call raises an error of an image with this number."""
    try:
        call(*arguments)
    except ImageError as error:
        return error.number == number and bool(error.reason)
    return False


def try_refusals(own):
    """What is refused changes nothing, and says why."""
    before = bytes(own)
    assert raises(FileNotFoundError, own.__getitem__, "/none") and raises(FileNotFoundError, own.__setitem__, "/none/x", b"")
    assert refused(204, own.__setitem__, "/", b"") and refused(209, own.__setitem__, "/big", bytes(3 << 20)) and bytes(own) == before
    assert refused(101, Image, before[:-1]) and refused(102, Image.migrated, before) and refused(101, Image, bytes(1 << 16))
    assert refused(301, Image.make, {"x": None}) and refused(305, Image.make, {"/d/x": b""})
    big, file = Image.make({"/f": b"x" * 70000, "/empty": b""}, blocks=200, inodes=16), "/f"
    assert big[file] == b"x" * 70000 and big["/empty"] == b""
    for text in ("x y", "_start: lli a0, 1", "_start: addi a0, a0, 5000"):
        assert raises(AssemblyError, assemble, text) and raises(AssemblyError, assemble_exactly, text)
    try:
        assemble("_start:\n    lli a0, 1\n\n    bee t0\n")
    except AssemblyError as error:
        assert [fault.line for fault in error.faults] == [2, 4] and error.faults[0].column == 5
    assert assemble_exactly("_start: addi a7, zero, 2\necall\n") == assemble("_start: addi a7, zero, 2\necall\n").file
    assert raises(AssemblyError, assemble_exactly, b"\xff")


def told(machine):
    """All processes with their registers, and how many frames are free."""
    return machine.processes(), machine.free_frames


def try_copies(image):
    """A copy goes on as its source does, and neither sees what the other does."""
    machine = Machine(image)
    machine.run_until("init: ")
    machine.type("ls\n")
    machine.steps(300)
    twin, other, deep = machine.copy(), copy.copy(machine), copy.deepcopy(machine)
    before = told(machine)
    other.tick()
    other.steps(300)
    assert told(machine) == before == told(twin) == told(deep) != told(other)
    for _step in range(300):
        machine.steps(1)
        twin.steps(1)
        assert told(machine) == told(twin)
    assert told(machine) != told(other)
    text = machine.run_until("console\n$ ")
    assert text.startswith(b"starting sh\n$ ls\n") and text == twin.run_until("console\n$ ")
    deep.type("mkdir d\n")
    machine.close()
    deep.run()
    assert "/d" in deep.files() and "/d" not in twin.files() and raises(Closed, copy.copy, machine)
    twin.close()
    assert other.run_until("console\n$ ") == text and other.run() == 0 and deep.save() != other.save()


def try_threads(image):
    """Machines in threads, each with its own, and one that all of them share."""
    def session(_number):
        with Machine(image) as machine:
            machine.run()
            machine.type("ls\n")
            machine.run()
            return machine.console()

    with ThreadPoolExecutor(4) as threads, Machine(image) as shared:
        assert len(set(threads.map(session, range(40)))) == 1
        list(threads.map(lambda _number: shared.steps(1000), range(40)))
        assert shared.console() == b"init: starting sh\n$ "


def play(machine, dice):
    """Random events until the machine stops; returns them as lines of a script."""
    script = []
    for _event in range(dice.randrange(3, 25)):
        kind = dice.randrange(4)
        try:
            if kind == 0:
                steps = dice.choice([1, 17, 500, 5000, 40000])
                script.append(f"step {steps}")
                machine.steps(steps)
            elif kind == 1:
                script.append("tick 1")
                machine.tick()
            elif kind == 2:
                line = dice.choice(LINES) + "\n"
                script.append(f"keys {line.encode().hex()}")
                machine.type(line)
            else:
                most = dice.choice([3, 3000, 3000000])
                script.append("")
                script[-1] = f"step {machine.run(most)}"
        except Halted:
            script[-1] = script[-1] or f"step {most}"
            break
    return [line for line in script if line != "step 0"]


def try_copied_seeds(image):
    """A copy in the middle of a random session: the same events do the same to both, and leave the same disk."""
    for seed in range(SEEDS):
        with Machine(image, 128) as machine:
            play(machine, random.Random(seed))
            with machine.copy() as twin:
                assert play(machine, random.Random(SEEDS + seed)) == play(twin, random.Random(SEEDS + seed)), f"seed {seed}"
                assert told(machine) == told(twin) and machine.console() == twin.console() and machine.save() == twin.save(), f"seed {seed}"


def reported(machine):
    """What a report of the program says of a machine: its processes, and how many frames are free."""
    return [reported_process(machine, process) for process in machine.processes()], machine.free_frames


def reported_process(machine, process):
    held = [
        (number, it.kind.replace(" ", "_"), it.number, it.readable, it.writable, it.offset if it.kind == "file" else None)
        for number, it in machine.descriptors(process.pid).items()
    ]
    waiting = machine.waiting(process.pid)
    waits = waiting and (waiting.call, waiting.enders, waiting.what)
    return process.pid, process.parent, process.state, process.status, process.killed, process.pc, process.size, held, waits


WAITS = {
    "child": "a child that ends", "console": "a line of the console", "bytes": "bytes in pipe {pipe}", "room": "room in pipe {pipe}",
    "tick": "tick {tick}",
}


def read_report(report):
    """The same of a report."""
    processes = []
    for it in report["processes"]:
        held = [
            (named["descriptor"], named["on"]["kind"], named["on"]["number"], named["readable"], named["writable"], named["on"]["offset"])
            for named in it["descriptors"]
        ]
        waits = it["waits"] and (it["waits"]["call"], tuple(it["waits"]["pids"]), WAITS[it["waits"]["kind"]].format(**it["waits"]))
        processes.append((*(it[key] for key in ("pid", "parent", "state", "status", "killed", "pc", "size")), held, waits))
    return processes, report["free_frames"]


def happened(image, script):
    """The calls, faults and exits of a script, each with the number of its event, up to the end of process 1."""
    found, gone = [], 0
    with Machine(image) as machine:
        try:
            for line in script:
                kind, what = line.split(" ")
                if kind == "step":
                    keep(((gone + it.at + 1, it) for it in machine.events(int(what))), found)
                elif kind == "tick":
                    machine.tick(int(what))
                else:
                    machine.type(bytes.fromhex(what))
                gone += len(what) // 2 if kind == "keys" else int(what)
        except Halted:
            pass
    calls = sorted((at, it.pid, it.name) for at, it in found if isinstance(it, Call))
    faults = [(at, it.pid, it.pc, it.address) for at, it in found if isinstance(it, Fault)]
    return calls, faults, [(at, it.pid, it.status) for at, it in found if isinstance(it, Exit)]


def read_lines(lines):
    """The same of the program's lines of events."""
    calls = {(it.get("since", it["at"]), it["pid"], it["call"]) for it in lines if it["event"] in ("call", "wait")}
    calls |= {(it["at"], it["pid"], "exit") for it in lines if it["event"] == "exit" and it["how"] == "exit"}
    faults = [(it["at"], it["pid"], it["pc"], it["address"]) for it in lines if it["event"] == "fault"]
    return sorted(calls), faults, [(it["at"], it["pid"], it["status"]) for it in lines if it["event"] == "exit"]


def try_seeds(program, path, image):
    """Random sessions; returns how many bytes their consoles have, and how many calls, faults and exits there were."""
    all_bytes = all_events = 0
    for seed in range(SEEDS):
        with Machine(image) as machine, tempfile.TemporaryDirectory() as folder:
            script, report, lines = (os.path.join(folder, name) for name in ("script", "report", "lines"))
            events = play(machine, random.Random(seed))
            with open(script, "w") as file:
                file.write("\n".join(events) + "\n")
            told = subprocess.run([program, "run", "--frames", "256", "--json", report, path, script], capture_output=True).stdout
            assert machine.console() == told, f"seed {seed}"
            with open(report) as file:
                assert reported(machine) == read_report(json.load(file)), f"seed {seed}"
            subprocess.run([program, "trace", "--frames", "256", "--jsonl", lines, path, script], capture_output=True)
            with open(lines) as file:
                seen = happened(image, events)
                assert seen == read_lines([json.loads(line) for line in file]), f"seed {seed}"
            all_bytes += len(told)
            all_events += sum(map(len, seen))
    return all_bytes, all_events


def main():
    program, path = sys.argv[2:4]
    with open(path, "rb") as file:
        image = file.read()
    free = try_session(image)
    try_files(image)
    try_errors(image)
    try_copies(image)
    try_threads(image)
    try_events(image)
    try_looks(image)
    try_stops(image)
    try_faults(os.path.abspath(program))
    try_schedules(image)
    try_pictures(image)
    try_images(os.path.abspath(program), path, image)
    print(f"check-library: Python: a session, with {free} frames free; files; errors; copies; threads; events; looks; stops; faults; schedules; images")
    try_copied_seeds(image)
    print(f"check-library: Python: {SEEDS} random sessions, each copied on its way")
    count, happenings = try_seeds(os.path.abspath(program), path, image)
    print(f"check-library: Python: {SEEDS} random sessions, {count} bytes, as many processes at their ends, {happenings} events: the program's")


main()
