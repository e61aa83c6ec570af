#!/usr/bin/env python3
"""own_program.py FOLDER TEXT.s: puts the program of an assembly text on an image of a folder, runs it at the shell, and prints what it
prints and how it ends.

FOLDER is user/ or another one with a manifest, or with files alone. What is wrong with the text is printed, each fault with its line.
"""
import pathlib
import sys

from cathompi import AssemblyError, Exit, Image, Machine, assemble


def main(folder: str, text: str) -> int:
    name = pathlib.Path(text).stem
    image = Image.from_dir(folder)
    try:
        image[f"/{name}"] = assemble(pathlib.Path(text).read_bytes())
    except AssemblyError as error:
        for fault in error.faults:
            print(f"{text}:{fault.line}:{fault.column}: {fault.reason}", file=sys.stderr)
        return 1
    with Machine(image) as machine:
        machine.run_until("$ ")
        machine.type(f"{name}\n")
        for event in machine.events():
            if isinstance(event, Exit):
                print(f"pid {event.pid} ended with {event.status}")
        print(machine.console().decode(errors="replace"))
    return 0


if __name__ == "__main__":
    sys.exit(main(*sys.argv[1:]))
