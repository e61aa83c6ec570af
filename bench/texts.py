"""Long texts: manifests, and a text for the assembler with what `xv6 dump` prints of it."""

from images import index_blocks


def full_manifest(size, inodes):
    """The manifest of an image whose inodes and data blocks are all in use, and what `xv6 check` says of it. Its files, of
    one block or two, are named `one` and `two`; its directories have at most 90 files, of one block or two."""
    blocks = size - (2 + inodes // 16 + 1) - (size // 8192 + 1)
    entries = inodes - 2
    folders = -(-entries // 91)
    counts = [(entries - folders + at) // folders for at in range(folders)]
    places = [folders + 2] + [count + 2 for count in counts]
    twice = blocks - sum(-(-16 * place // 1024) for place in places) - sum(counts)
    lines = [f"dir /d{folder}" for folder in range(folders)]
    for folder, count in enumerate(counts):
        for name in range(count):
            host = "two" if len(lines) - folders < twice else "one"
            lines.append(f"file /d{folder}/f{name} {host}")
    return "\n".join(lines) + "\n", f"ok {inodes - 1} inodes {blocks} blocks\n".encode()


def flat_manifest(count):
    """The manifest of n devices in the root, and what `xv6 check` says: it has no bytes but those of the root's entries."""
    text = "".join(f"dev /d{name} 1 1\n" for name in range(count))
    blocks = -(-16 * (count + 2) // 1024)
    return text, f"ok {count + 1} inodes {blocks + index_blocks(blocks)} blocks\n".encode()


def chain_manifest(depth):
    """The manifest of directories that are in one another, and what `xv6 check` says. A path is as long as its directory is
    deep, so the text is four times as long where it is twice as deep."""
    text = "".join(f"dir {'/d' * (level + 1)}\n" for level in range(depth))
    return text, f"ok {depth + 1} inodes {depth + 1} blocks\n".encode()


def jump(offset):
    """The word of a jump by n bytes, which is no call."""
    return (offset >> 20 & 1) << 31 | (offset >> 1 & 1023) << 21 | (offset >> 11 & 1) << 20 | (offset >> 12 & 255) << 12 | 0x6F


def labelled(count):
    """A text of n lines, each with a label and a jump to the label of a line far away; and what `xv6 dump` prints of it."""
    targets = [at * 7919 % count for at in range(count)]
    text = "".join(f"l{at:05}: j l{target:05}\n" for at, target in enumerate(targets))
    offsets = [4 * (target - at) for at, target in enumerate(targets)]
    dump = "".join(f"{4 * at:08x}: {jump(offset):08x} jal zero, {offset}\n" for at, offset in enumerate(offsets))
    return text, dump
