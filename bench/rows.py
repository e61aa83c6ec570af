"""The table of the benchmark: what is run, and what its time is compared with."""

import dataclasses
import functools
import re
import typing

import images
import texts
from jobs import ENDED, HERE, NATIVE, PLAIN, QEMU_SYSTEM, QEMU_USER, RUNNING, TWIN, Assembled, Booted, Check, Compiled, Flat, Mkfs
from jobs import Native, OnImage, Program, Translated, found, image_of

USER = HERE.parent / "user"
PAGE = 4096


@dataclasses.dataclass(frozen=True)
class Beside:
    """A job whose time is printed beside that of a row: what it is, at most how often the row's may have its time, how many units
    it does, where the cost of one is to be compared, and a job that only starts, whose time is taken off."""

    what: str
    job: typing.Any
    most: "float | None" = None
    count: "int | None" = None
    start: typing.Any = None


@dataclasses.dataclass(frozen=True)
class Row:
    """A row: its name, its job, how many units of what it does, by which its cost is given, and what it is compared with."""

    name: str
    job: typing.Any
    count: int
    unit: str
    beside: tuple


def beside_plain(name, job, *more, count, unit):
    """A row of a flat program beside the plain interpreter, and more."""
    plain = dataclasses.replace(job, on=PLAIN)
    return Row(name, job, count, unit, (Beside("plain Rust", plain), *more))


def copying(job, what="plain Rust whose fork copies"):
    """The plain interpreter whose forks copy."""
    return Beside(what, dataclasses.replace(job, on=PLAIN, flags=("--copying",)))


def twin(job):
    """The twin of the plain interpreter, which takes no flags."""
    return Beside("the twin", dataclasses.replace(job, on=TWIN, flags=()))


# What each name of what is beside a program needs, and how it is installed.
PEERS = {"qemu-user": QEMU_USER, "qemu-system": QEMU_SYSTEM, "native": NATIVE}


def is_there(name):
    """Whether one of them is installed."""
    return found(PEERS[name]) is not None


def missing():
    """Which of them aren't installed, each with the command that isn't found."""
    return [f"{name} ({tool})" for name, tool in PEERS.items() if not is_there(name)]


def peers(program, text, *flags):
    """Qemu, which translates the bytes of a program, and the host's code of a text: those that are installed. What each takes for
    its start is taken off."""
    empty = {
        **{name: Translated(Program("exit"), PEERS[name]) for name in ("qemu-user", "qemu-system")},
        "native": Native(HERE / "native" / "nothing.c"),
    }
    jobs = {
        **{name: Translated(program, PEERS[name]) for name in ("qemu-user", "qemu-system")},
        "native": Native(text, flags),
    }
    return [Beside(name, jobs[name], start=empty[name]) for name in PEERS if is_there(name)]


# ---- the hart

# How often the two loops are done, and how many instructions that takes.
ROUNDS, WORD_ROUNDS = 0x1000000, 0x2000
STEPS = 6 * ROUNDS + 4
WORD_STEPS = WORD_ROUNDS * (8 * 2048 + 3) + 10


def hart_rows():
    for name, loop, rounds, steps in [
        ("tight loop", "tight", ROUNDS, STEPS),
        ("memory loop", "memory", WORD_ROUNDS, WORD_STEPS),
    ]:
        program = Program(loop, ROUNDS=rounds)
        without = Flat(program)
        cached = Flat(program, flags=("--tlb",))
        others = peers(program, HERE / "native" / f"{loop}.c", f"-DROUNDS={rounds}")
        yield beside_plain(name, without, twin(without), *others, count=steps, unit="step")
        others = [twin(cached), Beside("without --tlb", without, 1.1)]
        yield beside_plain(f"{name} with --tlb", cached, *others, count=steps, unit="step")
        booted = Booted(image_of({"init": program}))
        yield Row(f"{name} from an image", booted, steps, "step", (Beside("the same by `flat`", without),))


# How many steps the C programs take, with the turn in which the process gets the hart.
C_STEPS = {
    "mandelbrot": 58_677_472,
    "queens": 39_917_135,
    "floats": 50_683_908,
    "sort": 49_453_915,
    "sha": 85_146_201,
    "memcp": 47_516_816,
    "vm": 49_600_010,
    "bigcode": 48_396_018,
    "chase": 51_532_824,
}

# The flags of their texts that aren't those of the others.
C_FLAGS = {"mandelbrot": ("-O0",)}


def c_rows():
    for name, steps in C_STEPS.items():
        job = Flat(Compiled(name), f"step {steps}\n", steps=steps)
        kept = Beside("plain Rust with --tlb", dataclasses.replace(job, on=PLAIN, flags=("--tlb",)))
        others = peers(Compiled(name), HERE / "c" / f"{name}.c", *C_FLAGS.get(name, ()))
        yield beside_plain(f"{name} in C", job, kept, twin(job), *others, count=steps, unit="step")


# How far apart two frames are that a small table of frames doesn't keep apart.
APART = 64


def clash(pages, rounds):
    """Two functions that lie n pages apart, called in turn."""
    return Flat(Program("clash", ROUNDS=rounds, GAP=(pages - 1) * PAGE))


# The steps of a round of `programs/clash.s`.
CLASH_STEPS = 2 * 18 + 2


def clash_rows():
    rounds = 1_000_000
    other = Beside("one page apart", clash(1, rounds), 1.1)
    name = f"functions in two pages whose frames differ by {APART}"
    yield beside_plain(name, clash(APART, rounds), twin(clash(APART, rounds)), other, count=CLASH_STEPS * rounds, unit="step")


# ---- data beside code

# Where the sum of `programs/sum.s` lies: after the loop that adds to it, or in the next page.
SUMS = [("a sum right after its loop", 8), ("a sum a page after its loop", PAGE)]

# The steps of a round.
SUM_STEPS = 5


def summed(gap, rounds):
    """A sum at the next multiple of `gap` bytes after its loop."""
    return Flat(Program("sum", ROUNDS=rounds, GAP=gap))


def sum_rows():
    rounds = 4_000_000
    (name, near), (_, far) = SUMS
    beside, apart = summed(near, rounds), summed(far, rounds)
    yield beside_plain(name, beside, twin(beside), Beside("a page after it", apart), count=SUM_STEPS * rounds, unit="step")


# ---- multiplication

# The instruction, and the call of a routine that shifts and adds, which a compiler's code has on a machine without it.
MULTIPLIES = ["mul a0, a0, a1", "jal ra, times"]


def hash_after(rounds):
    """What `programs/hash.s` comes to."""
    value = 14695981039346656037
    for _ in range(rounds):
        for byte in range(1024):
            value = (value ^ byte % 256) * 1099511628211 % 2**64
    return value


def product_sum():
    """The sum of the numbers of the product in `programs/matrix.s`."""
    left, right = [number % 256 for number in range(1024)], [number % 64 for number in range(1024)]
    columns = [sum(left[at::32]) for at in range(32)]
    rows = [sum(right[32 * at : 32 * at + 32]) for at in range(32)]
    return sum(column * row for column, row in zip(columns, rows))


def multiply_rows():
    """The same loop with multiplication in hardware and without it."""
    for name, program, rounds, wanted, count in [
        ("a hash of 512 KiB", "hash", 512, hash_after(512), 512 * 1024),
        ("a product of matrices, 16 times", "matrix", 16, product_sum(), 16 * 32**3),
    ]:
        by_mul, by_routine = [
            Flat(Program(program, ROUNDS=rounds, WANTED=wanted, MULTIPLY=how), flags=("--tlb",)) for how in MULTIPLIES
        ]
        routine = Beside("by a routine in place of mul", by_routine)
        yield beside_plain(name, by_mul, routine, count=count, unit="multiplication")


# ---- who looks on

LOOKS = [
    ("run", "--report"),
    ("run", "--json", "json"),
    ("trace", "--text", "text"),
    ("trace", "--text", "text", "--perfetto", "spans"),
    ("trace", "--text", "text", "--jsonl", "events"),
]


def looking_rows():
    """A run of 10,000,000 steps with 1000 calls, at which somebody looks on, beside the same without."""
    alone = Booted(image_of({"init": Program("seldom", CALLS=1000, ROUNDS=4997)}))
    for words in LOOKS:
        # What a report prints is before the end.
        looked = dataclasses.replace(alone, by=words, end=rf"[^\0]*{ENDED}")
        name = f"10000000 steps with 1000 calls by `{' '.join(words)}`"
        yield Row(name, looked, 10_000_000, "step", (Beside("by `run`", alone, 1.3),))


def commit_rows():
    """A run of 1,000,000 steps with a line for each."""
    alone = Booted(image_of({"init": Program("seldom", CALLS=100, ROUNDS=4997)}))
    logged = dataclasses.replace(alone, by=("trace", "--text", "text", "--commits", "log"))
    yield Row("1000000 steps by `trace --commits`", logged, 1_000_000, "step", (Beside("by `run`", alone),))


# How many states there are where two children make n calls each, by n.
STATES = {4: 215, 8: 559, 16: 1727}


def exploring(calls, frames=64, blocks=100):
    """A search of all orders of the calls of two children, which goes back to an earlier state again and again."""
    program = Program("orders", CHILDREN=2, CALLS=calls)
    said = rf"1 outcome under all schedules: {STATES[calls]} states, 1 end, .*\n.*\n"
    image = image_of({"init": program}, size=blocks, inodes=32)
    return Booted(image, frames=frames, by=("explore",), stdout=re.compile(said.encode()), end="")


def explore_rows():
    half = Beside("of 8 calls each", exploring(8), count=STATES[8])
    yield Row("explore, 2 children with 16 calls each", exploring(16), STATES[16], "state", (half,))


# ---- memory and processes


def sbrk(before, pages, rounds):
    return Flat(Program("sbrk", BEFORE=before * PAGE, BYTES=pages * PAGE, ROUNDS=rounds), frames=8192)


def fork(pages, touched, rounds):
    return Flat(Program("fork", BYTES=pages * PAGE, TOUCHED=touched, ROUNDS=rounds), frames=1024)


def executing(pages, length):
    """An image whose process 1 grows by n pages and forks 1000 children that execute a program of `length` pages."""
    init = Program("exec", BYTES=pages * PAGE, ROUNDS=1000)
    program = Program("p", pages=length, LAST=length * PAGE - 1)
    return Booted(image_of({"init": init, "p": program}), frames=2048)


def page_rows():
    for name, job in [
        ("clearing frames: sbrk by 4096 pages, 1000 times", sbrk(0, 4096, 1000)),
        ("sbrk by 64 pages, 64000 times", sbrk(0, 64, 64000)),
        ("sbrk by 64 pages above 4096 pages, 64000 times", sbrk(4096, 64, 64000)),
    ]:
        yield beside_plain(name, job, count=4096000, unit="page")
    touched = fork(200, 200, 10000)
    name = "copying frames: fork of 200 pages that the child writes, 10000 times"
    yield beside_plain(name, touched, copying(touched), count=2000000, unit="page")


def process_rows():
    yield beside_plain("fork and wait, 100000 times", fork(0, 0, 100000), count=100000, unit="child")
    half = Beside("of 100 pages", fork(100, 0, 10000))
    shared = fork(200, 0, 10000)
    yield beside_plain("fork of 200 pages, 10000 times", shared, copying(shared), half, count=10000, unit="child")
    copied = copying(fork(200, 0, 1000), "plain Rust whose fork copies, and whose child ends at once")
    smaller = [Beside(f"of {pages} pages", executing(pages, 1)) for pages in [100, 0]]
    yield Row("fork of 200 pages that execs at once, 1000 times", executing(200, 1), 1000, "child", (copied, *smaller))
    half = Beside("of 100 pages", executing(0, 100), 2.2)
    yield Row("exec of a program of 200 pages, 1000 times", executing(0, 200), 1000, "program", (half,))


# ---- turns

# How often there is a timer interrupt.
TICKS = 100_000


def ticking(program, steps, before=""):
    """A program of up to 64 processes with a timer interrupt after each n steps."""
    return Flat(program, before + f"step {steps}\ntick 1\n" * TICKS, 1024, end=RUNNING)


def turn_rows():
    counting = "64 processes, 100000 turns of 100 steps"
    yield beside_plain(counting, ticking(Program("share"), 100), count=TICKS, unit="turn")
    waiting, alone = [Program("waiting", WAITING=waiting) for waiting in [63, 0]]
    name = "64 processes of which 63 wait, 100000 turns of 100 steps"
    yield beside_plain(name, ticking(waiting, 100), count=TICKS, unit="turn")
    # The first steps are the forks; then each turn picks the one that counts.
    forks = "step 2000\n"
    other = Beside("of 1 process", ticking(alone, 2, forks))
    name = "64 processes of which 63 wait, 100000 turns of 2 steps"
    yield beside_plain(name, ticking(waiting, 2, forks), other, count=TICKS, unit="turn")


# ---- bytes

LINE = "the quick brown fox jumps over the lazy dog\n"
LINES = 10_000
ECHO = "echo hi | cat\n"
COMMANDS = 300


def byte_rows():
    rounds = 200_000
    piped = Flat(Program("pipe", ROUNDS=rounds, TOTAL=512 * rounds))
    yield beside_plain("512 bytes through a pipe, 200000 times", piped, count=512 * rounds, unit="byte")
    script = f"type {LINE}step 30\n" * LINES + "keys 04\nstep 30\n"
    typed = Flat(Program("echo"), script, stdout=(2 * LINE * LINES).encode() + b"\x04")
    yield beside_plain("10000 typed lines, read and echoed", typed, count=LINES, unit="line")
    half = Beside("of half as many", session(COMMANDS // 2), count=COMMANDS // 2)
    yield Row("300 lines `echo hi | cat` at a shell", session(COMMANDS), COMMANDS, "line", (half,))


def session(lines):
    """An image of the user programs, and a script that types n lines at the shell."""
    programs = {text.stem: Program(text.stem, folder=USER) for text in sorted(USER.glob("*.s"))}
    script = "step 20000\n" + f"type {ECHO}step 20000\n" * lines
    shown = "init: starting sh\n$ " + f"{ECHO}hi\n$ " * lines
    return Booted(image_of(programs), script, stdout=shown.encode(), end=RUNNING)


# ---- files


def rewriting(length, piece, rounds, after="next"):
    return Program("rewrite", LENGTH=length, PIECE=piece, ROUNDS=rounds, AFTER=after)


def naming(files, size, rounds=1):
    program = Program("names", FILES=files, BYTES=size, ROUNDS=rounds)
    return Booted(image_of({"init": program}, inodes=1100))


def rewriting_rows():
    """Files that are written and read back, so each byte counts twice."""
    for piece in [16, 512, 4096]:
        whole, half = [Flat(rewriting(length, piece, 1000)) for length in [25000, 12500]]
        name = f"a file of 25000 bytes written and read back in pieces of {piece}, 1000 times"
        yield Row(name, whole, 50_000_000, "byte", (Beside("of 12500 bytes", half, count=25_000_000),))
    for piece in [16, 512, 4096]:
        whole, half = [Booted(image_of({"init": rewriting(length, piece, 100)})) for length in [270000, 135000]]
        name = f"a file of 270000 bytes written and read back in pieces of {piece}, 100 times"
        yield Row(name, whole, 54_000_000, "byte", (Beside("of 135000 bytes", half, count=27_000_000),))


MEGABYTE = 1 << 20


def large_rows():
    """64 MB in files that are written, read back and removed on the largest image, so each byte counts twice."""
    jobs = {
        size: Booted(image_of({"init": rewriting(size * MEGABYTE, 4096, 64 // size, "remove")}, size=131072))
        for size in [64, 16, 1]
    }
    least = Beside("of 1 MB, 64 times", jobs[1], 1.2)
    name = "a file of 64 MB written, read back and removed"
    yield Row(name, jobs[64], 128 * MEGABYTE, "byte", (Beside("of 16 MB, 4 times", jobs[16], 1.2), least))
    name = "a file of 16 MB written, read back and removed, 4 times"
    yield Row(name, jobs[16], 128 * MEGABYTE, "byte", (least,))


def name_rows():
    whole, half = [Flat(Program("remake", ROUNDS=rounds)) for rounds in [100_000, 50_000]]
    often = Beside("half as often", half, count=50_000)
    yield Row("a file made and unlinked, 100000 times", whole, 100_000, "file", (often,))
    ten, five = [Flat(Program("lookup", PARTS=parts, ROUNDS=100_000)) for parts in [10, 5]]
    yield Row("a path of ten parts, 100000 times", ten, 100_000, "path", (Beside("of five", five, 2.2),))
    for what, size in [("of no bytes", 0), ("of 100 bytes", 100)]:
        half = Beside("of 500 files", naming(500, size), count=500)
        name = f"1000 files {what} made, opened and unlinked in one directory"
        yield Row(name, naming(1000, size), 1000, "file", (half,))


# ---- images and texts


def full_with_init(size):
    return lambda place: images.many_blocks(size, Program("exit").elf(place))


def made_full(size, inodes):
    manifest, told = texts.full_manifest(size, inodes)
    return Mkfs(manifest, told, {"one": b"1" * 1024, "two": b"2" * 2048}, size, inodes)


SMALL = b"hello\n" * 30


def roomy(size):
    """An image with one small file, `/init`, and large ones; of its blocks a few are free."""
    return images.many_blocks(size, SMALL, 64)


def put_small(size):
    """A file of 100 bytes more on such an image. What `xv6 check` says then is of one node and one block more."""

    def changed(told):
        return re.sub(rb"\d+", lambda number: b"%d" % (int(number[0]) + 1), told)

    words = ("put", "image", "/more", "more")
    return OnImage(functools.partial(roomy, size), words, hosts={"more": b"y" * 100}, changed=changed)


def get_small(size):
    return OnImage(functools.partial(roomy, size), ("get", "image", "/init"), SMALL)


def list_small(size):
    lines = re.compile(rb"(?:.+\n)*init +2 +2 +180\n(?:.+\n)*")
    return OnImage(functools.partial(roomy, size), ("ls", "image", "/"), lines)


def two_files(size):
    """`mkfs` of two files that nearly fill an image."""
    length = 1024 * size * 12 // 25
    blocks = -(-length // 1024)
    told = f"ok 3 inodes {1 + 2 * (blocks + images.index_blocks(blocks))} blocks\n".encode()
    return Mkfs("file /a half\nfile /b half\n", told, {"half": b"x" * length}, size, 64)


LARGEST = 131072


def small_file_rows():
    """One small file of an image of 128 MB, which each command checks first."""
    check = Check(functools.partial(roomy, LARGEST))
    for name, job, most in [
        ("ls", list_small(LARGEST), 1.1),
        ("get of 180 bytes", get_small(LARGEST), 1.1),
        ("put of 100 bytes", put_small(LARGEST), 1.8),
    ]:
        yield Row(f"{name}, on {LARGEST} blocks", job, 1, "run", (Beside("check of them", check, most),))
    smaller = Beside(f"of {LARGEST // 8}", two_files(LARGEST // 8), count=LARGEST // 8)
    yield Row(f"mkfs of {LARGEST} blocks and two files", two_files(LARGEST), LARGEST, "block", (smaller,))


def making_rows():
    whole, half = [Booted(full_with_init(size), saves=True) for size in [16384, 8192]]
    yield Row("boot and save of 16384 blocks", whole, 16384, "block", (Beside("of 8192", half, 2.2),))
    whole, half = made_full(16384, 8192), made_full(8192, 4096)
    yield Row("mkfs of 16384 blocks and 8192 inodes", whole, 16384, "block", (Beside("of half of both", half, 2.2),))
    for name, make, most in [
        ("devices", texts.flat_manifest, 2.2),
        ("directories in one another", texts.chain_manifest, 4.84),  # (2.2 twice: the text is four times as long)
    ]:
        whole, half = make(8190), make(4095)
        other = Beside("of half as many", Mkfs(*half), most, len(half[0]))
        yield Row(f"mkfs of 8190 {name}", Mkfs(*whole), len(whole[0]), "byte of the manifest", (other,))


def checking_rows():
    for name, make, count, unit in [
        ("8192 inodes", images.many_inodes, 8192, "inode"),
        ("16384 blocks", images.many_blocks, 16384, "block"),
        ("17000 names in a directory", images.many_names, 17000, "name"),
        ("60 directories of 17000 names", lambda names: images.many_names(names, 60), 17000, "name in each"),
    ]:
        whole, half = [Check(functools.partial(make, size)) for size in [count, count // 2]]
        yield Row(f"check of {name}", whole, count, unit, (Beside("of half as many", half, 2.2),))


def text_rows():
    whole, half = [Assembled(*texts.labelled(count)) for count in [50_000, 25_000]]
    yield Row("asm of 50000 lines and labels", whole, 50_000, "line", (Beside("of half as many", half, 2.2),))


# ---- all of them


def all_rows():
    """Every row, in the order in which they are run."""
    machines = [hart_rows, c_rows, clash_rows, sum_rows, multiply_rows, looking_rows, commit_rows, explore_rows]
    machines += [page_rows, process_rows, turn_rows, byte_rows]
    files = [rewriting_rows, large_rows, name_rows, small_file_rows, making_rows, checking_rows]
    for group in [*machines, *files, text_rows]:
        yield from group()
