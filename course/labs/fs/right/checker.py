"""checker.py IMAGE: prints ok, or the first rule that the image breaks, as `xv6 check` does."""
import sys
from collections import Counter

from image import BLOCK, DEVICE, DIRECTORY, FREE, LONGEST, MAGIC, Image

DOT, DOT_DOT = b".".ljust(14, b"\0"), b"..".ljust(14, b"\0")


def has_length(image):
    return len(image.data) >= 2 * BLOCK and len(image.data) == BLOCK * image.size


def has_magic(image):
    return image.magic == MAGIC


def has_numbers(image):
    return (
        32 <= image.size <= 131072
        and 16 <= image.inodes <= 8192
        and (image.log, image.log_start, image.inode_start) == (0, 2, 2)
        and image.bitmap_start == 2 + image.inodes // 16 + 1
        and image.data_blocks >= 1
        and image.data_blocks + image.data_start == image.size
    )


def has_kinds(image):
    return image.inode(1).kind == DIRECTORY and all(inode.kind <= DEVICE for inode in image.used_inodes())


def has_sizes(image):
    return all(fits_kind(inode) for inode in image.used_inodes())


def fits_kind(inode):
    if inode.kind == DIRECTORY and (inode.size < 32 or inode.size % 16):
        return False
    return inode.size <= LONGEST and (inode.kind != DEVICE or inode.size == 0)


def has_addresses(image):
    for inode in image.used_inodes():
        for number, is_asked, _ in image.slots(inode):
            if not (image.data_start <= number < image.size if is_asked else number == 0):
                return False
    return True


def named_blocks(image):
    return [number for inode in image.used_inodes() for number, is_asked, _ in image.slots(inode) if is_asked]


def names_once(image):
    blocks = named_blocks(image)
    return len(blocks) == len(set(blocks))


def has_bitmap(image):
    used = set(named_blocks(image)) | set(range(image.data_start))
    return all(image.bit(block) == (block in used) for block in range(image.size))


def directories(image):
    return [inode for inode in image.used_inodes() if inode.kind == DIRECTORY]


def names_of(image):
    """The entries of all directories, without "." and "..": (directory, entry)."""
    entries = [(inode, entry) for inode in directories(image) for entry in list(image.entries(inode))[2:]]
    return [(inode, entry) for inode, entry in entries if any(entry.bytes) or entry.number]


def is_name(data):
    name = data.rstrip(b"\0")
    return name not in (b"", b".", b"..") and b"\0" not in name and b"/" not in name


def has_entries(image):
    used = {inode.number for inode in image.used_inodes()}
    names = names_of(image)
    if not all(entry.number in used and is_name(entry.bytes) for _, entry in names):
        return False
    if len({(inode.number, entry.name) for inode, entry in names}) != len(names):
        return False
    parents = [(entry.number, inode.number) for inode, entry in names if image.inode(entry.number).kind == DIRECTORY]
    below_the_root = sorted(inode.number for inode in directories(image) if inode.number != 1)
    if sorted(child for child, _ in parents) != below_the_root:
        return False
    parent = dict(parents) | {1: 1}
    return all(has_dots(image, inode, parent[inode.number]) for inode in directories(image))


def has_dots(image, inode, parent):
    first, second = list(image.entries(inode))[:2]
    return (first.number, first.bytes, second.number, second.bytes) == (inode.number, DOT, parent, DOT_DOT)


def has_links(image):
    names = names_of(image)
    counts = Counter(entry.number for _, entry in names)
    below = Counter(inode.number for inode, entry in names if image.inode(entry.number).kind == DIRECTORY)
    for inode in image.used_inodes():
        wanted = 1 + below[inode.number] if inode.kind == DIRECTORY else counts[inode.number]
        if inode.links != wanted or not 1 <= inode.links <= 32767:
            return False
    return True


def is_reached(image):
    seen, left = set(), [1]
    while left:
        inode = image.inode(left.pop())
        if inode.number not in seen:
            seen.add(inode.number)
            if inode.kind == DIRECTORY:
                left += [entry.number for entry in image.names(inode)]
    return seen == {inode.number for inode in image.used_inodes()}


# In the order in which they are looked at: a rule needs those before it.
RULES = [
    (has_length, "1 Length"),
    (has_magic, "2 Magic"),
    (has_numbers, "3 Numbers"),
    (has_kinds, "4 NodeType"),
    (has_sizes, "8 Size"),
    (has_addresses, "5 Address"),
    (names_once, "6 SharedBlock"),
    (has_bitmap, "7 Bitmap"),
    (has_entries, "9 Entry"),
    (has_links, "10 Links"),
    (is_reached, "11 Unreached"),
]


def main():
    with open(sys.argv[1], "rb") as file:
        image = Image(file.read())
    for holds, fault in RULES:
        if not holds(image):
            print(f"fault {fault}")
            return 1
    print("ok")
    return 0


if __name__ == "__main__":
    sys.exit(main())
