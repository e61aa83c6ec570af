"""reader.py IMAGE: lists all directories, as `xv6 ls -R IMAGE /` does. reader.py IMAGE PATH: writes a file's bytes."""
import sys

from image import DIRECTORY, FILE, Image


def lines_of(image, path, inode):
    """The lines of a directory, and of those below it."""
    yield path + b":"
    below = []
    for entry in image.names(inode):
        named = image.inode(entry.number)
        yield b"%-14s %d %5d %6d" % (entry.name, named.kind, named.number, named.size)
        if named.kind == DIRECTORY and entry.name not in (b".", b".."):
            below.append((path.rstrip(b"/") + b"/" + entry.name, named))
    for further, named in below:
        yield b""
        yield from lines_of(image, further, named)


def main():
    with open(sys.argv[1], "rb") as file:
        image = Image(file.read())
    if len(sys.argv) == 2:
        sys.stdout.buffer.write(b"\n".join(lines_of(image, b"/", image.inode(1))) + b"\n")
        return 0
    found = image.find(sys.argv[2].encode())
    if found is None or found.kind != FILE:
        print(f"{sys.argv[2]}: there is no such file", file=sys.stderr)
        return 1
    sys.stdout.buffer.write(image.contents(found))
    return 0


if __name__ == "__main__":
    sys.exit(main())
