"""An image: its super block, inodes, the blocks that they name, and what directories hold."""
import struct
from collections import namedtuple

BLOCK = 1024
DIRECT, PER_INDEX = 11, 256
LONGEST = BLOCK * (DIRECT + PER_INDEX + PER_INDEX * PER_INDEX)
MAGIC = 0x10203041
FREE, DIRECTORY, FILE, DEVICE = 0, 1, 2, 3


class Inode(namedtuple("Inode", "number kind links size addresses")):
    """An inode; `addresses` are its 13 numbers of blocks."""

    @property
    def blocks(self):
        """How many blocks of data it has."""
        return (self.size + BLOCK - 1) // BLOCK


class Entry(namedtuple("Entry", "number bytes")):
    """An entry of a directory: a number, and 14 bytes."""

    @property
    def name(self):
        return self.bytes.rstrip(b"\0")


class Image:
    def __init__(self, data):
        self.data = data
        numbers = struct.unpack_from("<8I", data, BLOCK) if len(data) >= 2 * BLOCK else (0,) * 8
        self.magic, self.size, self.data_blocks, self.inodes = numbers[:4]
        self.log, self.log_start, self.inode_start, self.bitmap_start = numbers[4:]

    @property
    def data_start(self):
        return self.bitmap_start + self.size // (8 * BLOCK) + 1

    def block(self, number):
        return self.data[BLOCK * number : BLOCK * (number + 1)]

    def inode(self, number):
        at = BLOCK * (2 + number // 16) + 64 * (number % 16)
        kind, _, _, links, size, *addresses = struct.unpack_from("<4HI13I", self.data, at)
        return Inode(number, kind, links, size, tuple(addresses))

    def used_inodes(self):
        return [inode for inode in map(self.inode, range(1, self.inodes)) if inode.kind != FREE]

    def bit(self, block):
        return self.block(self.bitmap_start + block // (8 * BLOCK))[block // 8 % BLOCK] >> block % 8 & 1

    def index(self, block):
        """The numbers in an index block; none of one that the image doesn't have."""
        return struct.unpack("<256I", self.block(block)) if 0 < block < len(self.data) // BLOCK else (0,) * PER_INDEX

    def slots(self, inode):
        """Each number that an inode has for its blocks, whether its size asks for it, and whether it is one of data."""
        count = inode.blocks
        for at, number in enumerate(inode.addresses[:DIRECT]):
            yield number, at < count, True
        single, double = inode.addresses[DIRECT:]
        yield single, count > DIRECT, False
        if count > DIRECT:
            for at, number in enumerate(self.index(single), DIRECT):
                yield number, at < count, True
        yield double, count > DIRECT + PER_INDEX, False
        if count > DIRECT + PER_INDEX:
            yield from self.slots_of_leaves(double, count)

    def slots_of_leaves(self, double, count):
        for at, leaf in enumerate(self.index(double)):
            first = DIRECT + PER_INDEX + PER_INDEX * at
            yield leaf, first < count, False
            if first < count:
                for further, number in enumerate(self.index(leaf), first):
                    yield number, further < count, True

    def contents(self, inode):
        blocks = [self.block(number) for number, is_asked, is_data in self.slots(inode) if is_asked and is_data]
        return b"".join(blocks)[: inode.size]

    def entries(self, inode):
        """All entries of a directory, free ones too."""
        data = self.contents(inode)
        for at in range(0, len(data) // 16 * 16, 16):
            yield Entry(struct.unpack_from("<H", data, at)[0], data[at + 2 : at + 16])

    def names(self, inode):
        """Its entries that aren't free."""
        return [entry for entry in self.entries(inode) if entry.number]

    def find(self, path):
        """The inode of a path from the root, if there is one."""
        inode = self.inode(1)
        for part in filter(None, path.split(b"/")):
            if inode.kind != DIRECTORY:
                return None
            numbers = [entry.number for entry in self.names(inode) if entry.name == part]
            if not numbers:
                return None
            inode = self.inode(numbers[0])
        return inode
