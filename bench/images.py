"""Disk images of many inodes, blocks and names, written without `xv6 mkfs`, each with what `xv6 check` says of it."""

import struct

BLOCK = 1024
MAGIC = 0x10203041
DIRECT, NUMBERS = 11, 256
MOST_BLOCKS = DIRECT + NUMBERS + NUMBERS * NUMBERS
PLACES = BLOCK // 16
FREE, DIRECTORY, FILE, DEVICE = range(4)


def index_blocks(count):
    """How many index blocks a file of n blocks has: the single one, and past its numbers the double one and leaves."""
    if count > DIRECT + NUMBERS:
        return 2 + -(-(count - DIRECT - NUMBERS) // NUMBERS)
    return int(count > DIRECT)


def most_in(room):
    """How many blocks the longest file has that fits in n with its index blocks."""
    count = min(MOST_BLOCKS, room)
    while count + index_blocks(count) > room:
        count -= 1
    return count


class Image:
    """An image of that many blocks and inodes, with a root that has no entries yet."""

    def __init__(self, size, inodes):
        self.size, self.inodes = size, inodes
        self.bitmap = 2 + inodes // 16 + 1
        self.data = self.next_block = self.bitmap + size // 8192 + 1
        self.bytes = bytearray(BLOCK * size)
        numbers = (MAGIC, size, size - self.data, inodes, 0, 2, 2, self.bitmap)
        struct.pack_into("<8I", self.bytes, BLOCK, *numbers)
        self.next_inode = 2
        self.entries = {1: [(b".", 1), (b"..", 1)]}
        self.links = {1: 1}
        self.kinds = {1: DIRECTORY}

    def room(self):
        """How many data blocks are free."""
        return self.size - self.next_block

    def directory(self, above, name):
        """A directory more, and its number."""
        number = self.file(above, name, DIRECTORY)
        self.entries[number] = [(b".", number), (b"..", above)]
        self.links[above] += 1
        return number

    def file(self, above, name, kind=FILE):
        """A file of no bytes or another inode more, and its number."""
        number, self.next_inode = self.next_inode, self.next_inode + 1
        self.kinds[number], self.links[number] = kind, 0
        self.link(above, name, number)
        return number

    def link(self, above, name, number):
        """A name more."""
        self.entries[above].append((name, number))
        self.links[number] += 1

    def put(self, number, content):
        """Writes an inode whose bytes are these, in blocks that are free."""
        count = -(-len(content) // BLOCK)
        first, single = self.next_block, self.next_block + count
        self.next_block = single + index_blocks(count)
        self.bytes[BLOCK * first:BLOCK * first + len(content)] = content
        numbers = list(range(first, single))
        leaves = range(single + 2, self.next_block)
        for at, block in enumerate([single, *leaves] if count > DIRECT else []):
            start = DIRECT + NUMBERS * at
            self.put_numbers(block, numbers[start:start + NUMBERS])
        if leaves:
            self.put_numbers(single + 1, leaves)
        direct = (numbers[:DIRECT] + [0] * DIRECT)[:DIRECT]
        above = (single if count > DIRECT else 0, single + 1 if leaves else 0)
        fields = (self.kinds[number], 0, 0, self.links[number], len(content), *direct, *above)
        place = BLOCK * (2 + number // 16) + 64 * (number % 16)
        struct.pack_into("<4H14I", self.bytes, place, *fields)

    def put_numbers(self, block, numbers):
        """Writes an index block that begins with these numbers."""
        struct.pack_into(f"<{len(numbers)}I", self.bytes, BLOCK * block, *numbers)

    def finish(self, contents):
        """The whole image, once each inode is written: a directory's entries, or the bytes of a file. And what `xv6 check`
        says of it."""
        for number, kind in self.kinds.items():
            places = b"".join(struct.pack("<H14s", to, name) for name, to in self.entries.get(number, []))
            self.put(number, places if kind == DIRECTORY else contents.get(number, b""))
        for block in range(self.next_block):
            self.bytes[BLOCK * self.bitmap + block // 8] |= 1 << block % 8
        told = f"ok {self.next_inode - 1} inodes {self.next_block - self.data} blocks\n"
        return bytes(self.bytes), told.encode()


def many_inodes(inodes):
    """An image whose inodes are all in use, most of them in directories of 62 files without bytes."""
    image = Image(1200, inodes)
    while image.next_inode < inodes:
        above = image.directory(1, b"d%d" % image.next_inode)
        for at in range(min(62, inodes - image.next_inode)):
            image.file(above, b"f%d" % at)
    return image.finish({})


def many_blocks(size, init=b"", free=0):
    """An image whose blocks are all in use but that many, by files that are as long as they can be, and by the program `init`."""
    image = Image(size, 128)
    contents = {image.file(1, b"init"): init}
    blocks = -(-len(init) // BLOCK)
    room = image.room() - 1 - blocks - index_blocks(blocks) - free
    while room > 0:
        blocks = most_in(room)
        contents[image.file(1, b"f%d" % image.next_inode)] = b"x" * BLOCK * blocks
        room -= blocks + index_blocks(blocks)
    return image.finish(contents)


def many_names(names, directories=1):
    """An image of directories with n names each, all of one file. There is room for 60 large ones."""
    image = Image(16384, 128)
    above = [image.directory(1, b"d%d" % at) for at in range(directories)]
    number = image.file(above[0], b"name0")
    for at, directory in enumerate(above):
        for name in range(1 if at == 0 else 0, names):
            if image.links[number] == 32767:
                number = image.file(directory, b"name%d" % name)
            else:
                image.link(directory, b"name%d" % name, number)
    return image.finish({})
