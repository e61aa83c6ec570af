#!/usr/bin/env python3
"""Makes a folder of what runs without the Rattle kit: the program, the page, an image, the library for C, the wheel for Python.

    tools/release.py OUT     as `make release` calls it, once program, page, image and library are there

The version is that of the file VERSION. The same commit makes the same bytes. SHA256SUMS has the sum of each file.
"""
import hashlib
import pathlib
import re
import shutil
import subprocess
import sys

sys.dont_write_bytecode = True

import commands

TOP = pathlib.Path(__file__).resolve().parent.parent
VERSION = (TOP / "VERSION").read_text().strip()
PROGRAM = TOP / "crates" / "xv6" / "out" / "xv6"

# Each file of the release, and where it comes from.
FILES = {
    "xv6": PROGRAM,
    "xv6.html": TOP / "out" / "web" / "xv6.html",
    "xv6.img": TOP / "out" / "xv6.img",
    "demo.script": TOP / "user" / "demo",
    "lib/libxv6.a": TOP / "out" / "library" / "libxv6.a",
    "lib/libxv6.so": TOP / "out" / "library" / "libxv6.so",
    "include/xv6.h": TOP / "bindings" / "c" / "xv6.h",
    "example.c": TOP / "bindings" / "c" / "example.c",
    "LICENSE": TOP / "LICENSE",
}

PKG_CONFIG = f"""prefix=${{pcfiledir}}/../..
Name: xv6
Description: xv6 as a pure machine that is proved correct
Version: {VERSION}
Cflags: -I${{prefix}}/include
Libs: -L${{prefix}}/lib -lxv6
"""

# What the program and the library may need of the system.
LIBRARIES = {"libc.so.6", "libm.so.6", "libgcc_s.so.1", "ld-linux-x86-64.so.2", "libpthread.so.0", "libdl.so.2"}


def needed(path):
    """The libraries that a program or a library names, and the least glibc that has their versions."""
    told = subprocess.run(["readelf", "-d", "-V", path], capture_output=True, text=True, check=True).stdout
    minors = [int(minor) for minor in re.findall(r"GLIBC_2\.(\d+)", told)]
    return set(re.findall(r"\(NEEDED\).*\[(.*)\]", told)), max(minors, default=17)


def wheel(out):
    """Builds the wheel, whose name says the least glibc that it runs with."""
    package = TOP / "bindings" / "python"
    shutil.copyfile(FILES["lib/libxv6.so"], package / "cathompi" / "libxv6.so")
    sys.path.insert(0, str(package))
    import backend

    _, minor = needed(FILES["lib/libxv6.so"])
    return backend.build_wheel(out, {"platform": f"manylinux_2_{max(minor, 17)}_x86_64"})


def write(out):
    """Writes all files into the folder."""
    texts = {
        "lib/pkgconfig/xv6.pc": PKG_CONFIG,
        "man/man1/xv6.1": commands.man_page(VERSION),
        "completions/xv6.bash": commands.bash(),
        "completions/_xv6": commands.zsh(),
        "completions/xv6.fish": commands.fish(),
    }
    for name in [*FILES, *texts]:
        (out / name).parent.mkdir(parents=True, exist_ok=True)
    for name, source in FILES.items():
        shutil.copyfile(source, out / name)
    (out / "xv6").chmod(0o755)
    for name, text in texts.items():
        (out / name).write_text(text)
    wheel(out)
    names = sorted(str(it.relative_to(out)) for it in out.rglob("*") if it.is_file())
    sums = [f"{hashlib.sha256((out / name).read_bytes()).hexdigest()}  {name}\n" for name in names]
    (out / "SHA256SUMS").write_text("".join(sums))
    return names


def faults(out):
    """What is wrong with a release."""
    for name in ("xv6", "lib/libxv6.so"):
        others = needed(out / name)[0] - LIBRARIES
        if others:
            yield f"{name} needs {', '.join(sorted(others))}"
    said = subprocess.run([out / "xv6", "--version"], capture_output=True, text=True, check=False).stdout.split()
    if said[-1:] != [VERSION]:
        yield f"xv6 --version says {' '.join(said)}, and VERSION {VERSION}"
    if f"## {VERSION}" not in (TOP / "CHANGELOG.md").read_text().splitlines():
        yield f"CHANGELOG.md has no heading {VERSION}"


def main(words):
    if len(words) != 1 or words[0].startswith("-"):
        print(__doc__.strip())
        return 0 if words in (["-h"], ["--help"]) else 2
    missing = [str(it) for it in FILES.values() if not it.exists()]
    if missing:
        print(f"release: there is no {', '.join(missing)}", file=sys.stderr)
        return 1
    out = pathlib.Path(words[0])
    shutil.rmtree(out, ignore_errors=True)
    out.mkdir(parents=True)
    names = write(out)
    bad = list(faults(out))
    for fault in bad:
        print(f"release: {fault}", file=sys.stderr)
    print(f"{out}: version {VERSION}, {len(names)} files, {sum((out / it).stat().st_size for it in names)} bytes; SHA256SUMS has their sums")
    return int(bool(bad))


if __name__ == "__main__":
    sys.exit(main(sys.argv[1:]))
