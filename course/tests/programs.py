"""Programs for the tests of the grader: those of user/, and texts of a folder with the calls after them. The program
xv6 assembles them, so no compiler is needed."""

import os
import pathlib
import subprocess

HERE = pathlib.Path(__file__).resolve().parent
TOP = HERE.parent.parent
XV6 = os.environ.get("XV6", "xv6")


def assemble(text: pathlib.Path, out: pathlib.Path, more: str = "") -> pathlib.Path:
    """Assembles a text, and what comes after it."""
    whole = out.with_suffix(".whole")
    whole.write_text(text.read_text() + more)
    subprocess.run([XV6, "asm", whole, out], check=True)
    whole.unlink()
    return out


def assemble_user(folder: pathlib.Path) -> pathlib.Path:
    """Assembles the programs of user/, and writes a manifest of an image that has them."""
    lines = []
    for text in sorted((TOP / "user").glob("*.s")):
        assemble(text, folder / text.stem)
        lines.append(f"file /{text.stem} {text.stem}\n")
    manifest = folder / "manifest"
    manifest.write_text("".join(lines))
    return manifest
