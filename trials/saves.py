#!/usr/bin/env python3
"""Tries whether `xv6` ever loses a file of the host, and how much memory it takes for inputs without end.

    trials/saves.py kills [--runs N] [--seed N] PROGRAM     as `make kills` calls it
    trials/saves.py full PROGRAM                            as `make full` does: a disk without room, at each length
    trials/saves.py places PROGRAM                          as `make places` does: links, pipes, permissions
    trials/saves.py memory PROGRAM                          as `make limits` does

`kills` runs `run --save OUT` over an old image of 16 MB and ends it by SIGKILL: half of the runs at a random moment, the others
at a random moment after the new file was begun. Each time OUT must have the old bytes or the new ones, whole. A file that was
begun is left beside where the program was killed as it was written: these are counted, and removed.

`full` saves an image of 32 blocks and one of 200 to a file system that has room for n pages, from none to all of them:
a small tmpfs where one can be mounted (that needs root, or `unshare`), and then under a limit on the length of files. Each time
OUT must have the old bytes and no other file be left where the status is 1, and the new bytes where it is 0.

`places` saves to a link, to a link that leads nowhere, to a pipe and to standard output, over a file of permissions of its own,
over one that may not be written, and into a folder that takes no new file, with a file that may be written and without. It puts
twenty files into one image at once, saves beside files that killed programs left, and names outputs twice.

`memory` checks an endless file, boots one, and makes images of a manifest with 2000 lines that name a file of 270,000 bytes,
and of one that names an endless file: at most 64 MB over the size of the image, or of the largest one where it is read. On a
stack of 1 MB each command has to do its job.

The status is 1 where something was lost.
"""

import argparse
import fcntl
import hashlib
import os
import pathlib
import random
import resource
import signal
import subprocess
import sys
import tempfile
import time

PAGE = 4096
MEGABYTE = 1 << 20
LOOP = "again: jal zero, again\n"


def done(program, *words, cwd, status=0):
    """Runs a command that has to end with this status."""
    ran = subprocess.run([program, *words], cwd=cwd, capture_output=True, text=True)
    if ran.returncode != status:
        sys.exit(f"{' '.join(words)}: status {ran.returncode}, {ran.stderr.strip()}")
    return ran


def prepare(program, folder, size):
    """An image of n blocks with a program that never ends, a script, and the digest of what a save leaves."""
    (folder / "loop.s").write_text(LOOP)
    (folder / "manifest").write_text("file /init loop\n")
    (folder / "script").write_text("step 100\n")
    done(program, "asm", "loop.s", "loop", cwd=folder)
    done(program, "mkfs", "--size", str(size), "manifest", "image", cwd=folder)
    done(program, "run", "--save", "saved", "image", "script", cwd=folder)
    return (folder / "saved").read_bytes()


def begun(folder):
    """The files that were begun, and not removed."""
    return [name for name in os.listdir(folder) if name.startswith(".xv6-new-")]


def digest(path):
    """What is in a file."""
    with open(path, "rb") as file:
        return hashlib.file_digest(file, "sha256").digest()


class Kills:
    """Runs that are ended at random moments, and what they left."""

    def __init__(self, program, folder, seed):
        self.program, self.folder, self.chance = program, folder, random.Random(seed)
        self.new = prepare(program, folder, 16384)
        self.old = self.chance.randbytes(len(self.new))
        self.digests = {hashlib.sha256(self.old).digest(): "old", hashlib.sha256(self.new).digest(): "new"}
        self.disk = folder / "disk"
        self.disk.mkdir()
        self.out = self.disk / "out.img"
        self.counts = {"old": 0, "new": 0, "lost": 0, "begun": 0}
        self.put_old()
        self.whole, self.writing = self.times()

    def put_old(self):
        self.out.write_bytes(self.old)

    def start(self):
        words = [self.program, "run", "--save", str(self.out), "image", "script"]
        return subprocess.Popen(words, cwd=self.folder, stdout=subprocess.DEVNULL, stderr=subprocess.DEVNULL)

    def wait_for_begun(self, process, limit):
        """Waits until a file was begun, or the process has ended."""
        end = time.monotonic() + limit
        while process.poll() is None and not begun(self.disk) and time.monotonic() < end:
            pass

    def times(self):
        """How long a run takes, and how long it takes from the new file's begin on."""
        start = time.monotonic()
        process = self.start()
        self.wait_for_begun(process, 60)
        middle = time.monotonic()
        process.wait()
        end = time.monotonic()
        self.put_old()
        return end - start, end - middle

    def run(self, number):
        process = self.start()
        if number % 2 == 0:
            time.sleep(self.chance.uniform(0, 1.2 * self.whole))
        else:
            self.wait_for_begun(process, 60)
            time.sleep(self.chance.uniform(0, 0.8 * self.writing))
        process.send_signal(signal.SIGKILL)
        process.wait()
        self.judge()

    def judge(self):
        held = self.digests.get(digest(self.out)) if self.out.exists() else None
        self.counts[held or "lost"] += 1
        left = begun(self.disk)
        self.counts["begun"] += bool(left)
        for name in left:
            os.unlink(self.disk / name)
        if held != "old":
            self.put_old()


def kills(arguments, folder):
    """Kills n runs."""
    tried = Kills(arguments.program, folder, arguments.seed)
    for number in range(arguments.runs):
        tried.run(number)
    counts = tried.counts
    print(f"{arguments.runs} runs of {tried.whole:.2f} s killed: {counts['old']} left the old file, {counts['new']} the new one,"
          f" {counts['lost']} neither; {counts['begun']} while the new file was written")
    return counts["lost"] == 0


# ---- a disk without room

def mounted(folder, size):
    """Mounts a tmpfs of n bytes."""
    folder.mkdir(exist_ok=True)
    return subprocess.run(["mount", "-t", "tmpfs", "-o", f"size={size}", "tmpfs", str(folder)], capture_output=True).returncode == 0


def room_left(folder, room):
    """Fills a file system until n bytes are free, and says whether that was possible."""
    stats = os.statvfs(folder)
    filler = stats.f_bavail * stats.f_frsize - room
    if filler < 0:
        return False
    (folder / "filler").write_bytes(b"\0" * filler)
    return True


def judged(ran, out, old, new, others):
    """What is wrong with what a run left, if anything is."""
    held = out.read_bytes()
    if ran.returncode == 0 and held != new:
        return "status 0, but not the new file"
    if ran.returncode == 1 and held != old:
        return "status 1, but not the old file"
    if ran.returncode not in (0, 1):
        return f"status {ran.returncode}"
    if ran.returncode == 1 and f"cannot write {out}" not in ran.stderr.splitlines():
        return f"printed {ran.stderr!r}"
    if set(os.listdir(out.parent)) != others:
        return f"left {sorted(os.listdir(out.parent))}"
    return None


def saved_to(program, folder, out, limit=None):
    """Saves the image, under a limit on the length of files."""

    def limited():
        if limit is not None:
            signal.signal(signal.SIGXFSZ, signal.SIG_IGN)
            resource.setrlimit(resource.RLIMIT_FSIZE, (limit, limit))

    words = [program, "run", "--save", str(out), "image", "script"]
    return subprocess.run(words, cwd=folder, capture_output=True, text=True, preexec_fn=limited)


def full_at(program, folder, disk, new, room):
    """Saves where n bytes are free: what is wrong, if anything is, and whether the save was refused."""
    old = b"\xa5" * len(new)
    out = disk / "out.img"
    out.write_bytes(old)
    if not room_left(disk, room):
        return "the tmpfs is too small", True
    ran = saved_to(program, folder, out)
    (disk / "filler").unlink()
    wrong = judged(ran, out, old, new, {"out.img"})
    out.unlink()
    for name in begun(disk):
        os.unlink(disk / name)
    return wrong, ran.returncode != 0


def limited_at(program, folder, disk, new, limit):
    """Saves where no file may be longer: what is wrong, if anything is, and whether the save was refused."""
    old = b"\xa5" * len(new)
    out = disk / "out.img"
    out.write_bytes(old)
    ran = saved_to(program, folder, out, limit)
    wrong = judged(ran, out, old, new, {"out.img"})
    for name in begun(disk):
        os.unlink(disk / name)
    return wrong, ran.returncode != 0


def told(name, results):
    """Prints what came of the lengths."""
    wrong = [(length, what) for length, (what, _) in results if what]
    refused = sum(is_refused for _, (_, is_refused) in results)
    print(f"{name}: {len(results)} lengths, {refused} refused, {len(wrong)} wrong")
    for length, what in wrong[:10]:
        print(f"    {length} bytes: {what}")
    return not wrong


def full(arguments, folder):
    """A full disk at each length."""
    good = True
    for size in (32, 200):
        new = prepare(arguments.program, folder, size)
        disk = folder / "full"
        if mounted(disk, 2 * len(new) + 64 * PAGE):
            try:
                rooms = range(0, len(new) + 2 * PAGE, PAGE)
                results = [(room, full_at(arguments.program, folder, disk, new, room)) for room in rooms]
                good &= told(f"a full tmpfs, {size} blocks", results)
            finally:
                subprocess.run(["umount", str(disk)], check=True)
        else:
            print("no tmpfs can be mounted here")
        disk = folder / f"limited{size}"
        disk.mkdir()
        limits = range(0, len(new) + 1024, 1024)
        results = [(limit, limited_at(arguments.program, folder, disk, new, limit)) for limit in limits]
        good &= told(f"files of a limited length, {size} blocks", results)
    return good


# ---- destinations

class Places:
    """Saves to destinations of all kinds, as a user who isn't root, and what is wrong."""

    def __init__(self, program, folder):
        self.folder, self.new = folder, prepare(program, folder, 32)
        self.program, self.wrong = program, []
        self.user = {"user": 65534, "group": 65534, "extra_groups": []} if os.geteuid() == 0 else {}
        os.chmod(folder, 0o755)

    def place(self, name, mode=0o777):
        """A folder of this mode."""
        place = self.folder / name
        place.mkdir()
        os.chmod(place, mode)
        return place

    def old(self, path, mode=0o666):
        path.write_bytes(b"old")
        os.chmod(path, mode)
        return path

    def save(self, out, stdout=subprocess.DEVNULL):
        words = [self.program, "run", "--save", str(out), "image", "script"]
        ran = subprocess.run(words, cwd=self.folder, stdout=stdout, stderr=subprocess.PIPE, text=True, **self.user)
        return ran.returncode

    def expect(self, what, is_so):
        print(f"{what}: {'as wanted' if is_so else 'WRONG'}")
        self.wrong += [] if is_so else [what]

    def links(self):
        place, other = self.place("links"), self.place("other")
        target = self.old(other / "target")
        (place / "link").symlink_to("../other/target")
        (place / "chain").symlink_to("link")
        status = self.save(place / "chain")
        same = (place / "chain").is_symlink() and (place / "link").is_symlink()
        self.expect("a link to a link", status == 0 and same and target.read_bytes() == self.new and not begun(other))
        (place / "nowhere").symlink_to("../other/new")
        status = self.save(place / "nowhere")
        self.expect("a link that leads nowhere", status == 0 and (place / "nowhere").is_symlink() and (other / "new").read_bytes() == self.new)

    def modes(self):
        place = self.place("modes")
        for mode in (0o600, 0o640, 0o666, 0o755, 0o4755):
            out = self.old(place / f"{mode:o}")
            os.chown(out, *(65534, 65534) if self.user else (-1, -1))
            os.chmod(out, mode)
            status = self.save(out)
            self.expect(f"permissions {mode:o}", status == 0 and out.stat().st_mode & 0o7777 == mode & 0o777 and out.read_bytes() == self.new)
        out = self.old(place / "closed", 0o444)
        self.expect("a file that may not be written", self.save(out) == 1 and out.read_bytes() == b"old")
        self.expect("a new file", self.save(place / "new") == 0 and (place / "new").read_bytes() == self.new)
        self.expect("no new file is left", not begun(place))

    def pipes(self):
        place = self.place("pipes")
        pipe = place / "pipe"
        os.mkfifo(pipe)
        os.chmod(pipe, 0o666)
        reader = subprocess.Popen(["cat", str(pipe)], stdout=subprocess.PIPE)
        status = self.save(pipe)
        held = reader.communicate()[0]
        self.expect("a pipe", status == 0 and held == self.new and pipe.is_fifo())
        words = [self.program, "mkfs", "--size", "32", "--inodes", "16", "/dev/null", "/dev/stdout"]
        ran = subprocess.run(words, cwd=self.folder, capture_output=True)
        self.expect("standard output, a pipe", ran.returncode == 0 and len(ran.stdout) == 32768)
        with open(place / "shown", "wb") as file:
            ran = subprocess.run(words, cwd=self.folder, stdout=file)
        self.expect("standard output, a file", ran.returncode == 0 and (place / "shown").stat().st_size == 32768)
        self.expect("a folder", self.save(place) == 1)

    def left(self):
        """Files that killed programs left are removed by the next save, and those that a program holds are not."""
        place = self.place("left")
        left, held = self.old(place / ".xv6-new-0"), self.old(place / ".xv6-new-1")
        with open(held) as file:
            fcntl.flock(file, fcntl.LOCK_EX)
            status = self.save(place / "out")
        self.expect("a file that was left, and one that is held", status == 0 and begun(place) == [held.name] and not left.exists())
        self.expect("the same once nobody holds it", self.save(place / "out") == 0 and not begun(place))

    def at_once(self):
        """Programs that put a file into one image at once."""
        place = self.place("once")
        done(self.program, "mkfs", "--size", "100", "/dev/null", str(place / "image"), cwd=self.folder)
        os.chmod(place / "image", 0o666)
        words = [[self.program, "put", "image", f"/n{k}", "../script"] for k in range(20)]
        running = [subprocess.Popen(put, cwd=place, stderr=subprocess.DEVNULL, **self.user) for put in words]
        statuses = {put.wait() for put in running}
        listed = done(self.program, "ls", "image", "/", cwd=place).stdout.split()
        self.expect("twenty puts at once", statuses == {0} and {f"n{k}" for k in range(20)} <= set(listed))
        with open(place / "image") as file:
            fcntl.flock(file, fcntl.LOCK_EX)
            put = subprocess.run(words[0], cwd=place, capture_output=True, text=True, **self.user)
        self.expect("an image that another program holds", (put.returncode, put.stderr) == (1, "image is in use\n"))

    def twice(self):
        """Outputs that are another file of the words."""
        place = self.place("twice")
        for name in ("image", "script"):
            (place / name).write_bytes((self.folder / name).read_bytes())
        (place / "link").symlink_to("image")
        before = {path.name: path.read_bytes() for path in place.iterdir()}
        rows = [
            ("j", "run", "--save", "j", "--json", "j", "image", "script"), ("./j", "run", "--save", "j", "--json", "./j", "image", "script"),
            ("image", "run", "--json", "image", "image", "script"), ("link", "live", "--record", "link", "image"),
            ("script", "play", "--script", "script", "image", "script"), ("t", "trace", "--text", "t", "--perfetto", "t", "image", "script"),
            ("c", "trace", "--text", "t", "--perfetto", "c", "--commits", "c", "image", "script"), ("image", "get", "image", "/init", "image"),
            ("script", "flat", "--json", "script", "image", "script"),
        ]
        for name, *words in rows:
            ran = subprocess.run([self.program, *words], cwd=place, capture_output=True, text=True, stdin=subprocess.DEVNULL)
            same = before == {path.name: path.read_bytes() for path in place.iterdir()}
            self.expect(" ".join(words), (ran.returncode, ran.stdout, ran.stderr) == (1, "", f"{name} is named twice\n") and same)

    def closed(self):
        place = self.place("shut")
        out = self.old(place / "out")
        os.chmod(place, 0o555)
        self.expect("a closed folder with a file", self.save(out) == 0 and out.read_bytes() == self.new)
        self.expect("a closed folder without one", self.save(place / "none") == 1 and os.listdir(place) == ["out"])
        sticky = self.place("sticky", 0o1777)
        out = self.old(sticky / "out")
        self.expect("another's file in a sticky folder", self.save(out) == 0 and out.read_bytes() == self.new and not begun(sticky))


def places(arguments, folder):
    """Destinations of all kinds."""
    tried = Places(arguments.program, folder)
    tried.links()
    tried.modes()
    tried.pipes()
    tried.left()
    tried.at_once()
    tried.twice()
    tried.closed()
    return not tried.wrong


# ---- memory

def peak(words, cwd):
    """The status of a command, what it printed, and the most memory that it had, in bytes."""
    with tempfile.TemporaryFile() as told:
        process = subprocess.Popen(words, cwd=cwd, stdout=told, stderr=told)
        _, status, usage = os.wait4(process.pid, 0)
        told.seek(0)
        return os.waitstatus_to_exitcode(status), told.read().decode(errors="replace").strip(), usage.ru_maxrss * 1024


def shallow(program, folder):
    """Whether a stack of 1 MB suffices for each command that builds a machine or checks an image."""
    for name, text in (("end.s", "li a0, 0\nli a7, 2\necall\n"), ("manifest", "file /init end\n"), ("script", "step 9\n"), ("play", "step 9\n")):
        (folder / name).write_text(text)
    done(program, "asm", "end.s", "end", cwd=folder)
    done(program, "mkfs", "--size", "32", "manifest", "image", cwd=folder)
    small = ["image", "script"]
    rows = [["check", "image"], ["ls", "image", "/"], ["run", "--save", "saved", *small], ["run", "--report", "--tlb", *small],
            ["trace", "--text", "text", *small], ["live", "--save", "saved", "image"], ["play", "--report", "image", "play"]]
    good = True
    for words in rows:
        ran = subprocess.run([program, *words], cwd=folder, capture_output=True, stdin=subprocess.DEVNULL,
                             preexec_fn=lambda: resource.setrlimit(resource.RLIMIT_STACK, (MEGABYTE, MEGABYTE)))
        good &= ran.returncode == 0
        print(f"{' '.join(words)}, on a stack of 1 MB: status {ran.returncode}" + ("" if ran.returncode == 0 else ", WRONG"))
    return good


def memory(arguments, folder):
    """Inputs without end."""
    program = arguments.program
    (folder / "big").write_bytes(b"x" * 270000)
    (folder / "many").write_text("".join(f"file /f{line} big\n" for line in range(2000)))
    (folder / "endless").write_text("file /f /dev/zero\nfile /g /dev/zero\n")
    (folder / "empty").write_text("")
    with open(folder / "long.img", "wb") as file:
        file.truncate(3 << 30)
    rows = [
        (["dump", "/dev/zero"], 2, 1, "fault 1 Magic"),
        (["check", "/dev/zero"], 128, 1, "fault 1 Length"),
        (["check", "long.img"], 128, 1, "fault 1 Length"),
        (["run", "/dev/zero", "empty"], 128, 1, "fault 1 Length"),
        (["run", "--frames", "1", "/dev/zero", "empty"], 128, 1, "fault 2 FrameCount"),
        (["ls", "/dev/zero", "/"], 128, 1, "fault 1 Length"),
        (["flat", "/dev/zero", "empty"], 128, 1, "fault 5 NoInit"),
        (["mkfs", "many", "out.img"], 2, 1, "fault 3 Blocks"),
        (["mkfs", "--size", "16384", "--inodes", "8000", "many", "out.img"], 16, 1, "fault 3 Blocks"),
        (["mkfs", "--size", "131072", "--inodes", "8000", "many", "out.img"], 256, 1, "fault 3 Blocks"),
        (["mkfs", "--size", "4294967295", "many", "out.img"], 16, 1, "fault 6 Numbers"),
        (["mkfs", "endless", "out.img"], 2, 1, "fault 3 Blocks"),
    ]
    good = shallow(program, folder)
    for words, megabytes, status, line in rows:
        got, text, most = peak([program, *words], folder)
        fits = got == status and text == line and most <= (megabytes + 64) * MEGABYTE
        good &= fits
        print(f"{' '.join(words)}: {text}, status {got}, {most // MEGABYTE} MB" + ("" if fits else ", WRONG"))
    return good


def main():
    parser = argparse.ArgumentParser(description=__doc__, formatter_class=argparse.RawDescriptionHelpFormatter)
    parser.add_argument("what", choices=("kills", "full", "places", "memory"))
    parser.add_argument("program", type=os.path.abspath)
    parser.add_argument("--runs", type=int, default=1000)
    parser.add_argument("--seed", type=int, default=1)
    arguments = parser.parse_args()
    with tempfile.TemporaryDirectory() as folder:
        good = {"kills": kills, "full": full, "places": places, "memory": memory}[arguments.what](arguments, pathlib.Path(folder))
    sys.exit(0 if good else 1)


if __name__ == "__main__":
    main()
