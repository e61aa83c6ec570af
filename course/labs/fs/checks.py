"""The tests of lab fs: images by the submission's seed, right and spoiled, and what xv6 says of them."""
import pathlib
import random
import resource
import struct
import subprocess
import sys
import tempfile

BLOCK, SIZE, INODES = 1024, 700, 120
SECONDS, MOST_BYTES = 20, 1 << 30
SCRATCH = tempfile.TemporaryDirectory(prefix="fs-")


# ---- images


class Made:
    """An image that is made of random files, and can be changed."""

    known = {}  # the bytes of those that were made

    def __init__(self, run, sizes, many=0):
        self.run, self.random = run, random.Random(" ".join(run.values.names))
        self.folder = pathlib.Path(SCRATCH.name)
        self.directories, self.files = ["/one", "/one/two"], {}
        all_names = [first + rest for first in "abcdefghijklm" for rest in ("x", "yy", 13 * "z")]
        names = iter(self.random.sample(all_names, len(all_names)))
        self.directories += [f"/{next(names)}" for _ in range(6)]
        for size in sizes:
            directory = self.random.choice(["", *self.directories])
            self.files[f"{directory}/{next(names)}"] = self.random.randbytes(size)
        for number in range(many):
            self.files[f"/one/n{number}"] = b""
        key = (run.values.names, tuple(sizes), many)
        if key not in self.known:
            self.known[key] = self.make()
        self.data = bytearray(self.known[key])

    def make(self):
        lines = [f"dir {path}" for path in self.directories] + ["dev /console 1 0"]
        for number, (path, content) in enumerate(self.files.items()):
            (self.folder / f"content-{number}").write_bytes(content)
            lines.append(f"file {path} {self.folder}/content-{number}")
        (self.folder / "made.manifest").write_text("\n".join(lines) + "\n")
        files = [f"{self.folder}/made.manifest", f"{self.folder}/made.img"]
        done = self.run.xv6("mkfs", "--size", str(SIZE), "--inodes", str(INODES), *files)
        if done.status:
            raise RuntimeError(f"mkfs: {done.error}")
        return (self.folder / "made.img").read_bytes()

    def write(self):
        path = self.folder / "made.img"
        path.write_bytes(self.data)
        return path

    # what is where

    def number(self, at):
        return struct.unpack_from("<I", self.data, at)[0]

    def put(self, form, at, value):
        struct.pack_into(form, self.data, at, value)

    def inode_at(self, number):
        return 2 * BLOCK + 64 * number

    def kind(self, number):
        return struct.unpack_from("<H", self.data, self.inode_at(number))[0]

    def used(self, kind):
        return [number for number in range(1, INODES) if self.kind(number) == kind]

    def free_inode(self):
        return self.random.choice([number for number in range(1, INODES) if self.kind(number) == 0])

    def links_at(self, number):
        return self.inode_at(number) + 6

    def links(self, number):
        return struct.unpack_from("<H", self.data, self.links_at(number))[0]

    def size(self, number):
        return self.number(self.inode_at(number) + 8)

    def address_at(self, number, slot):
        return self.inode_at(number) + 12 + 4 * slot

    def files_of(self, blocks):
        """The inodes of files that have more blocks than that."""
        return [number for number in self.used(2) if self.size(number) > BLOCK * blocks]

    @property
    def bitmap(self):
        return self.number(BLOCK + 28)

    @property
    def data_start(self):
        return self.bitmap + SIZE // 8192 + 1

    def flip(self, block):
        self.data[BLOCK * self.bitmap + block // 8] ^= 1 << block % 8

    def is_marked(self, block):
        return self.data[BLOCK * self.bitmap + block // 8] >> block % 8 & 1

    def free_block(self):
        return self.random.choice([block for block in range(self.data_start, SIZE) if not self.is_marked(block)])

    def entries(self, directory):
        """The offsets of the entries in a directory's first block."""
        begin = BLOCK * self.number(self.address_at(directory, 0))
        return range(begin, begin + min(self.size(directory), BLOCK), 16)

    def entry_of(self, directory, name):
        return next(at for at in self.entries(directory) if bytes(self.data[at + 2 : at + 16]).rstrip(b"\0") == name)

    def add_entry(self, directory, number, name):
        at = self.entries(directory)[-1] + 16
        self.put("<H", at, number)
        self.data[at + 2 : at + 16] = name.ljust(14, b"\0")
        self.put("<I", self.inode_at(directory) + 8, self.size(directory) + 16)

    def inode_of(self, path):
        number = 1
        for part in filter(None, path.split("/")):
            number = struct.unpack_from("<H", self.data, self.entry_of(number, part.encode()))[0]
        return number


def usual(run):
    return Made(run, (0, 1, 700, 1023, 1024, 1025, 11 * BLOCK, 11 * BLOCK + 1, 20000))


# ---- the programs


def limit():
    resource.setrlimit(resource.RLIMIT_CPU, (SECONDS, SECONDS))
    resource.setrlimit(resource.RLIMIT_AS, (MOST_BYTES, MOST_BYTES))
    resource.setrlimit(resource.RLIMIT_FSIZE, (0, 0))


def words_of(folder, program):
    """What starts a program of the submission: a file of Python, or what was compiled of one of C."""
    path = folder / f"{program}.py"
    if path.is_file():
        return [sys.executable, "-E", "-S", "-B", path]
    return [folder / program] if (folder / program).is_file() else None


def call(run, program, *words):
    """Status and output of a program of the submission."""
    first = words_of(pathlib.Path(run.folder).resolve(), program)
    if first is None:
        return None, b""
    words = [*first, *words]
    try:
        done = subprocess.run(words, capture_output=True, timeout=3 * SECONDS, preexec_fn=limit, cwd=SCRATCH.name)
    except (OSError, subprocess.TimeoutExpired):
        return None, b""
    return done.returncode, done.stdout


# ---- reader


def lists_as_xv6(run, made):
    path = made.write()
    wanted = run.xv6("ls", "-R", str(path), "/").output
    status, output = call(run, "reader", path)
    if status != 0:
        return f"reader IMAGE ended with status {status}"
    if output == wanted:
        return None
    pairs = zip([*output.split(b"\n"), b""], [*wanted.split(b"\n"), b""])
    line, right = next(((one, other) for one, other in pairs if one != other), (b"", b""))
    return f"the first line that differs is {line!r}; xv6 ls -R has {right!r}"


def reads_as_xv6(run, made, paths):
    image = made.write()
    for path in paths:
        wanted = run.xv6("get", str(image), path).output
        status, output = call(run, "reader", image, path)
        if status != 0 or output != wanted:
            return f"of a file of {len(wanted)} bytes reader wrote {len(output)}, and not these (status {status})"
    return None


def lists_directories(run):
    return lists_as_xv6(run, usual(run))


def reads_short_files(run):
    made = usual(run)
    short = [path for path, content in made.files.items() if len(content) <= 11 * BLOCK]
    always = [path for path in short if len(made.files[path]) in (1024, 1025)]
    return reads_as_xv6(run, made, made.random.sample(short, 4) + always)


def reads_long_files(run):
    made = Made(run, [11 * BLOCK + 1, 12 * BLOCK, 267 * BLOCK, 267 * BLOCK + 5])
    return reads_as_xv6(run, made, made.files)


def refuses_what_is_no_file(run):
    made = usual(run)
    image = made.write()
    path = made.random.choice(list(made.files))
    for wrong in (path + "x", path + "/x", "/one", "/", "/nosuch/file", "/console"):
        status, output = call(run, "reader", image, wrong)
        if status != 1 or output:
            return f"{wrong} is no file, and reader ended with status {status} and {len(output)} bytes"
    return None


def remove_file(made, path):
    """A free entry in the middle of its directory, and an inode with numbers that nobody looks at."""
    directory, name = path.rsplit("/", 1)
    number, at = made.inode_of(path), made.entry_of(made.inode_of(directory), name.encode())
    made.data[at : at + 16] = bytes(16)
    for slot in range((made.size(number) + BLOCK - 1) // BLOCK):
        made.flip(made.number(made.address_at(number, slot)))
    made.put("<H", made.inode_at(number), 0)


def add_name(made, path):
    """A second name for a file, in another directory."""
    number = made.inode_of(path)
    made.add_entry(made.inode_of("/one/two"), number, b"second")
    made.put("<H", made.links_at(number), made.links(number) + 1)


def changed(run):
    made = Made(run, [0, 10, 1024, 5000, 3000, 30000], many=70)
    short = [path for path, content in made.files.items() if 0 < len(content) <= 5000]
    removed, linked = made.random.sample(short, 2)
    for path in (removed, "/one/n5"):
        remove_file(made, path)
        del made.files[path]
    add_name(made, linked)
    return made, linked


def reads_after_changes(run):
    made, linked = changed(run)
    wrong = lists_as_xv6(run, made) or reads_as_xv6(run, made, ["/one/two/second", linked, "/one/n69"])
    return wrong


# ---- checker


def judged(run, made, what):
    """None where checker says the same of an image as xv6 does."""
    path = made.write()
    said = run.xv6("check", str(path))
    wanted = said.output + said.error.encode()
    status, output = call(run, "checker", path)
    one, other = [text.decode("latin-1").split()[:2] for text in (wanted, output)]
    if one[:1] == ["ok"]:
        one, other = one[:1], other[:1]
    if one == other and status == (one[0] != "ok"):
        return None
    return f"{what}: xv6 check prints {' '.join(one)!r}, checker {' '.join(other)!r} (status {status})"


def each(run, *spoils):
    """What is wrong with the first of some spoiled images of which checker says something else than xv6."""
    for spoil in spoils:
        made = usual(run)
        spoil(made)
        wrong = judged(run, made, (spoil.__doc__ or spoil.__name__).strip("."))
        if wrong:
            return wrong
    return None


def accepts_right_images(run):
    for made in (usual(run), Made(run, [268 * BLOCK]), Made(run, [], many=70)):
        wrong = judged(run, made, "an image of mkfs")
        if wrong:
            return wrong
    return None


def cut_off(made):
    """The last block is missing."""
    del made.data[-BLOCK:]


def one_block_more(made):
    """There is a block more than the super block says."""
    made.data += bytes(BLOCK)


def half_a_block_more(made):
    """There is half a block more."""
    made.data += bytes(BLOCK // 2)


def other_magic(made):
    """The magic number is that of the small format."""
    made.put("<I", BLOCK, 0x10203040)


def wrong_number(index, change):
    def spoil(made):
        made.put("<I", BLOCK + 4 * index, made.number(BLOCK + 4 * index) + change)

    names = ["", "", "blocks of data", "inodes", "log", "log's start", "inodes' start", "bitmap's start"]
    spoil.__doc__ = f"The number of the {names[index]} is changed by {change}."
    return spoil


def finds_fault_of_the_super_block(run):
    return each(
        run, cut_off, one_block_more, half_a_block_more, other_magic, wrong_number(2, 1), wrong_number(2, -1),
        wrong_number(3, 16), wrong_number(4, 1), wrong_number(5, 1), wrong_number(6, 1), wrong_number(7, 1),
    )


def unknown_kind(made):
    """An inode in use has type 4."""
    made.put("<H", made.inode_at(made.random.choice(made.used(2))), 4)


def unknown_kind_of_a_free_one(made):
    """An inode that nothing names has type 7."""
    made.put("<H", made.inode_at(made.free_inode()), 7)


def odd_directory(made):
    """A directory's size is no multiple of 16."""
    number = made.random.choice(made.used(1))
    made.put("<I", made.inode_at(number) + 8, made.size(number) + made.random.randint(1, 15))


def finds_fault_of_an_inode(run):
    return each(run, unknown_kind, unknown_kind_of_a_free_one, odd_directory)


def change_block(made, number, slot, block):
    """Another block in a slot; the old one's bit is cleared."""
    made.flip(made.number(made.address_at(number, slot)))
    made.put("<I", made.address_at(number, slot), block)


def no_block(made):
    """A block's number is 0."""
    number = made.random.choice(made.files_of(1))
    change_block(made, number, 1, 0)


def block_of_the_bitmap(made):
    """A block's number is below the data."""
    change_block(made, made.random.choice(made.files_of(0)), 0, made.data_start - 1)


def block_after_the_end(made):
    """A block's number is that of the block after the last one."""
    change_block(made, made.random.choice(made.files_of(0)), 0, SIZE)


def spare_number(made):
    """A number that the size doesn't ask for isn't 0."""
    number = made.random.choice([it for it in made.files_of(0) if made.size(it) <= 10 * BLOCK])
    made.put("<I", made.address_at(number, 10), made.free_block())


def spare_index(made):
    """A file of eleven blocks has an index block."""
    number = next(it for it in made.used(2) if made.size(it) == 11 * BLOCK)
    made.put("<I", made.address_at(number, 11), made.free_block())


def spare_number_of_an_index(made):
    """A number of an index block that the size doesn't ask for isn't 0."""
    index = made.number(made.address_at(made.random.choice(made.files_of(11)), 11))
    made.put("<I", BLOCK * index + 4 * 200, made.free_block())


def finds_wrong_addresses(run):
    spares = [spare_number, spare_index, spare_number_of_an_index]
    return each(run, no_block, block_of_the_bitmap, block_after_the_end, *spares)


def same_block(made):
    """Two files have a block in common."""
    one, other = made.random.sample(made.files_of(0), 2)
    change_block(made, one, 0, made.number(made.address_at(other, 0)))


def same_block_twice(made):
    """A file has a block twice."""
    number = made.random.choice(made.files_of(1))
    change_block(made, number, 1, made.number(made.address_at(number, 0)))


def index_is_data(made):
    """A file's index block is one of its blocks."""
    number = made.random.choice(made.files_of(11))
    index = made.number(made.address_at(number, 11))
    first = made.number(BLOCK * index)
    made.flip(first)
    made.put("<I", BLOCK * index, index)


def finds_shared_blocks(run):
    return each(run, same_block, same_block_twice, index_is_data)


def free_and_marked(made):
    """The bit of a free block is 1."""
    made.flip(made.free_block())


def used_and_not_marked(made):
    """The bit of a file's block is 0."""
    made.flip(made.number(made.address_at(made.random.choice(made.files_of(0)), 0)))


def index_not_marked(made):
    """The bit of an index block is 0."""
    made.flip(made.number(made.address_at(made.random.choice(made.files_of(11)), 11)))


def bitmap_not_marked(made):
    """The bit of a block before the data is 0."""
    made.flip(made.random.randrange(made.data_start))


def last_marked(made):
    """The bit of the last block is 1."""
    made.flip(SIZE - 1)


def finds_wrong_bits(run):
    return each(run, free_and_marked, used_and_not_marked, index_not_marked, bitmap_not_marked, last_marked)


def name_of(made, directory=1):
    """The offset of an entry that is neither "." nor ".."."""
    return made.random.choice(list(made.entries(directory))[2:])


def slash_in_a_name(made):
    """A name has a slash."""
    made.data[name_of(made) + 3] = ord("/")


def byte_after_a_zero(made):
    """A byte comes after the 0 of a name."""
    at = made.entry_of(1, b"one")
    made.data[at + 10] = ord("x")


def no_number(made):
    """An entry has a name, and the number 0."""
    made.add_entry(1, 0, b"none")


def no_name(made):
    """An entry has a number, and no name."""
    made.add_entry(1, made.free_inode(), b"")


def free_number(made):
    """An entry has the number of a free inode."""
    made.add_entry(1, made.free_inode(), b"free")


def number_after_the_last(made):
    """An entry has a number after the last inode."""
    made.add_entry(1, INODES, b"after")


def name_twice(made):
    """A name is twice in a directory, for the same file."""
    number = made.random.choice([it for it in made.used(2)])
    for _ in range(2):
        made.add_entry(1, number, b"again")
    made.put("<H", made.links_at(number), made.links(number) + 2)


def own_number(made):
    """"." has another directory's number."""
    made.put("<H", made.entries(made.inode_of("/one"))[0], 1)


def parent_number(made):
    """".." has the root's number where the parent is another one."""
    made.put("<H", made.entries(made.inode_of("/one/two"))[1], 1)


def finds_wrong_entries(run):
    return each(
        run, slash_in_a_name, byte_after_a_zero, no_number, no_name, free_number, number_after_the_last, name_twice,
        own_number, parent_number,
    )


def link_too_many(made):
    """A file's count of links is one more."""
    number = made.random.choice(made.used(2))
    made.put("<H", made.links_at(number), made.links(number) + 1)


def link_of_a_directory(made):
    """A directory's count of links is one more."""
    number = made.random.choice(made.used(1))
    made.put("<H", made.links_at(number), made.links(number) + 1)


def link_of_a_device(made):
    """A device's count of links is 0."""
    made.put("<H", made.links_at(made.used(3)[0]), 0)


def name_without_link(made):
    """A file has two names, and one link."""
    made.add_entry(made.inode_of("/one"), made.random.choice(made.used(2)), b"second")


def finds_wrong_links(run):
    return each(run, link_too_many, link_of_a_directory, link_of_a_device, name_without_link)


def ring(made):
    """Two directories name one another, and no other one names them."""
    one, two = made.inode_of("/one"), made.inode_of("/one/two")
    at = made.entry_of(1, b"one")
    made.data[at : at + 16] = bytes(16)
    made.add_entry(two, one, b"one")
    made.put("<H", made.entries(one)[1], two)
    made.put("<H", made.links_at(1), made.links(1) - 1)
    made.put("<H", made.links_at(two), made.links(two) + 1)


def finds_what_is_not_reached(run):
    return each(run, ring)


def odd_bytes(made):
    """Bytes that no rule is of: block 0, what is after the super block's numbers and the last bit, what is free."""
    made.data[:BLOCK] = made.random.randbytes(BLOCK)
    made.data[BLOCK + 32 : 2 * BLOCK] = made.random.randbytes(BLOCK - 32)
    made.data[BLOCK * made.bitmap + 100 : BLOCK * (made.bitmap + 1)] = made.random.randbytes(BLOCK - 100)
    block = made.free_block()
    made.data[BLOCK * block : BLOCK * (block + 1)] = made.random.randbytes(BLOCK)
    at = made.inode_at(made.free_inode())
    made.data[at + 2 : at + 64] = made.random.randbytes(62)
    made.data[made.inode_at(0) : made.inode_at(1)] = made.random.randbytes(64)
    at, end = made.inode_at(INODES), BLOCK * made.bitmap
    made.data[at:end] = made.random.randbytes(end - at)


def accepts_odd_images(run):
    made, _ = changed(run)
    return judged(run, made, "an image with a free entry and a second name") or each(run, odd_bytes)
