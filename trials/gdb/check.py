#!/usr/bin/env python3
"""check.py PROGRAM [--write] [NAME..]: debuggers debug small programs in C over `PROGRAM gdb`, by the scripts NAME.gdb and NAME.lldb.

What a debugger prints is compared with NAME.txt, or written there with --write. `make check-gdb` runs all of them.
They need Debian's gdb-multiarch and gcc-riscv64-unknown-elf; what is for lldb is left out where there is none.
"""
import dataclasses
import difflib
import pathlib
import shutil
import socket
import subprocess
import sys
import tempfile
import time

HERE = pathlib.Path(__file__).resolve().parent
TOP = HERE.parent.parent
EXAMPLES = TOP / "examples" / "c"
RACES = TOP / "examples" / "races"
COMPILER = "riscv64-unknown-elf-gcc"
FLAGS = (
    "-march=rv64im -mabi=lp64 -mcmodel=medany -mstrict-align -msmall-data-limit=0 -ffreestanding -fno-builtin -O1 -g -Wall -Wextra "
    "-nostdlib -static -Wl,-z,max-page-size=4096 -Wl,--build-id=none"
).split()


@dataclasses.dataclass(frozen=True)
class Trial:
    """A debugger's script, the programs of the image, of which the first is /init, the machine's script, and the most seconds.

    Without a machine's script it is that of the last outcome that `explore` finds."""

    name: str
    programs: tuple
    events: str | None = "step 400000"
    debugger: str = "gdb"
    limit: float = 60.0


TRIALS = [
    Trial("store", ("ring",)),
    Trial("line", ("ring",)),
    Trial("output", ("ring",)),
    Trial("accesses", ("ring",)),
    Trial("fork", ("ring",)),
    Trial("exec", ("starts", "sum")),
    Trial("fault", ("fault",)),
    Trial("again", ("ring",)),
    Trial("times", ("ring",)),
    Trial("condition", ("loop",), events="step 36060000", limit=5.0),
    Trial("typed", ("reads",), events="step 1000"),
    Trial("race", ("counter",), events=None),
    Trial("lldb", ("reads",), events="step 1000", debugger="lldb"),
]

# What each script of gdb begins with.
SETTINGS = ["set pagination off", "set width 0", "set style enabled off", "source lines.gdb"]


def source_of(name):
    """The file NAME.c: here, or among the races."""
    here = HERE / f"{name}.c"
    return here if here.exists() else RACES / f"{name}.c"


def compile_program(name, folder):
    """Compiles NAME.c: DIR/NAME.elf has its symbols, and DIR/NAME none."""
    whole = folder / f"{name}.elf"
    words = [COMPILER, *FLAGS, "-T", EXAMPLES / "program.ld", "-I", EXAMPLES, EXAMPLES / "start.S", source_of(name), "-o", whole]
    subprocess.run(words, check=True, cwd=HERE)
    subprocess.run(["riscv64-unknown-elf-strip", "-o", folder / name, whole], check=True)


def make_image(program, names, folder):
    """Makes DIR/NAME.img of programs, of which the first is /init, and returns its name."""
    for name in names:
        compile_program(name, folder)
    first, *others = names
    # The symbols of /init are in init.elf.
    shutil.copy(folder / f"{first}.elf", folder / "init.elf")
    (folder / "manifest").write_text("".join([f"file /init {first}\n", *(f"file /{name} {name}\n" for name in others)]))
    image = f"{first}.img"
    subprocess.run([program, "mkfs", "manifest", image], check=True, cwd=folder)
    return image


def script_of(program, trial, image, folder):
    """The machine's script of a trial."""
    if trial.events is not None:
        return trial.events + "\n"
    subprocess.run([program, "explore", "--scripts", "found", image], stdout=subprocess.DEVNULL, stderr=subprocess.DEVNULL, cwd=folder)
    return max((folder / "found").iterdir()).read_text()


def printed(words, folder):
    """What a debugger prints, on standard output and error."""
    told = subprocess.run(words, cwd=folder, stdin=subprocess.DEVNULL, stdout=subprocess.PIPE, stderr=subprocess.STDOUT, timeout=600)
    return told.stdout.decode(errors="replace")


def by_gdb(program, script, image, folder):
    """What gdb prints by the lines of a script."""
    told = subprocess.run([program, "gdb", "--init"], check=True, stdout=subprocess.PIPE)
    (folder / "lines.gdb").write_bytes(told.stdout)
    target = f"target extended-remote | ./xv6 gdb --symbols . {image} script"
    (folder / "begin.gdb").write_text("\n".join([*SETTINGS, target, "set trace-commands on"]) + "\n")
    # Each line by itself: gdb leaves out the rest of a script after a command that it refuses.
    lines = [word for line in script.read_text().splitlines() for word in ("-ex", line)]
    return printed(["gdb-multiarch", "-nx", "-batch", "-x", "begin.gdb", *lines], folder)


def by_lldb(script, image, folder):
    """What lldb prints by the lines of a script."""
    with socket.create_server(("127.0.0.1", 0)) as server:
        port = server.getsockname()[1]
    bridge = subprocess.Popen([TOP / "tools" / "gdb_bridge.py", str(port), "./xv6", "gdb", "--symbols", ".", image, "script"], cwd=folder)
    try:
        begin = [
            "settings set use-color false",
            "settings set plugin.process.gdb-remote.packet-timeout 60",
            "target create --arch riscv64 init.elf",
            f"gdb-remote {port}",
        ]
        (folder / "begin.lldb").write_text("\n".join(begin) + "\n")
        time.sleep(0.5)
        words = ["lldb", "-x", "-b", "-s", "begin.lldb", "-s", script]
        told = subprocess.run(words, cwd=folder, stdin=subprocess.DEVNULL, stdout=subprocess.PIPE, stderr=subprocess.DEVNULL, timeout=600)
        return told.stdout.decode(errors="replace").replace(str(port), "PORT")
    finally:
        bridge.kill()
        bridge.wait()


def debug(program, trial, folder):
    """What a debugger prints, without what differs from run to run, and the seconds that it takes."""
    image = make_image(program, trial.programs, folder)
    (folder / "script").write_text(script_of(program, trial, image, folder))
    (folder / "xv6").symlink_to(program)
    script = HERE / f"{trial.name}.{trial.debugger}"
    begun = time.monotonic()
    text = by_gdb(program, script, image, folder) if trial.debugger == "gdb" else by_lldb(script, image, folder)
    seconds = time.monotonic() - begun
    for path in (folder, HERE, EXAMPLES, RACES):
        text = text.replace(f"{path}/", "")
    return text, seconds


def main():
    words = [it for it in sys.argv[1:] if it != "--write"]
    program = str(pathlib.Path(words[0]).resolve())
    bad = 0
    for trial in TRIALS:
        if words[1:] and trial.name not in words[1:]:
            continue
        if trial.debugger == "lldb" and not shutil.which("lldb"):
            print(f"{trial.name}: left out, no lldb")
            continue
        with tempfile.TemporaryDirectory() as temporary:
            text, seconds = debug(program, trial, pathlib.Path(temporary).resolve())
        stored = HERE / f"{trial.name}.txt"
        if "--write" in sys.argv:
            stored.write_text(text)
        wanted = stored.read_text()
        is_right = text == wanted and seconds <= trial.limit
        print(f"{trial.name}: {'ok' if is_right else 'WRONG'}, {seconds:.1f} s of {trial.limit:.0f}", flush=True)
        if not is_right:
            bad = 1
            sys.stdout.writelines(difflib.unified_diff(wanted.splitlines(True), text.splitlines(True), "stored", "printed"))
    return bad


if __name__ == "__main__":
    sys.exit(main())
