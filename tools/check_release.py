#!/usr/bin/env python3
"""Uses a release in an empty folder, without the Rattle kit and this repository.

    tools/check_release.py RELEASE     as `make check-release` calls it

Tried are: the sums; the program on the image with the script of the demo, alone and in a root that has the system's libraries that it
names and nothing else; the wheel in a new venv, with the README's lines; the C example by pkg-config, with either library; the man page;
the completions, by the shells that are there; the page in Chromium. What can't be tried, for want of a tool, fails; the status is 1 then.
"""
import os
import pathlib
import re
import shutil
import subprocess
import sys
import tempfile

sys.dont_write_bytecode = True

TOP = pathlib.Path(__file__).resolve().parent.parent
SHOWN = b"init: starting sh\n$ ls\n"
PYTHON = """
from cathompi import Machine

image = open("xv6.img", "rb").read()
with Machine(image) as machine:
    machine.run_until("$ ")
    machine.type("ls\\n")
    print(machine.run_until("$ ").decode())
"""


class Wrong(Exception):
    """Something that a release does not do."""


def run(words, **how):
    """What a command prints, which has to end well."""
    done = subprocess.run(words, capture_output=True, **how)
    if done.returncode:
        raise Wrong(f"{' '.join(map(str, words))}: status {done.returncode}: {done.stderr.decode().strip()[-400:]}")
    return done.stdout


def need(*tools):
    for tool in tools:
        if not shutil.which(tool):
            raise Wrong(f"there is no {tool}")


def sums(at):
    run(["sha256sum", "--check", "--quiet", "--strict", "SHA256SUMS"], cwd=at)
    return f"{len((at / 'SHA256SUMS').read_text().splitlines())} sums"


def program(at):
    got = run([at / "xv6", "run", "xv6.img", "demo.script"], cwd=at)
    if not got.startswith(SHOWN) or not got.endswith(b"$ echo hi | cat\nhi\n$ "):
        raise Wrong(f"xv6 prints {got!r}")
    return "xv6 runs the image with the script of the demo"


def alone(at):
    """In a root with the libraries that ldd names, and nothing else."""
    need("ldd", "chroot")
    libraries = re.findall(r"(/\S+) \(0x", run(["ldd", at / "xv6"]).decode())
    names = sorted(pathlib.Path(it).name for it in libraries)
    with tempfile.TemporaryDirectory() as name:
        root = pathlib.Path(name)
        for it in libraries:
            (root / it.lstrip("/")).parent.mkdir(parents=True, exist_ok=True)
            shutil.copyfile(it, root / it.lstrip("/"))
            (root / it.lstrip("/")).chmod(0o755)
        for it in ("xv6", "xv6.img", "demo.script"):
            shutil.copy(at / it, root / it)
        got = run(["unshare", "--user", "--map-root-user", "chroot", root, "/xv6", "run", "/xv6.img", "/demo.script"]
                  if os.getuid() else ["chroot", root, "/xv6", "run", "/xv6.img", "/demo.script"])
    if not got.startswith(SHOWN):
        raise Wrong(f"in a root of its own xv6 prints {got!r}")
    return f"the same in a root with {', '.join(names)} alone"


def wheel(at):
    names = list(at.glob("*.whl"))
    if len(names) != 1:
        raise Wrong(f"{len(names)} wheels")
    run([sys.executable, "-m", "venv", at / "venv"])
    python = at / "venv" / "bin" / "python"
    run([python, "-m", "pip", "install", "--quiet", "--no-index", "--disable-pip-version-check", names[0]])
    got = run([python, "-c", PYTHON], cwd=at)
    if not got.startswith(b"ls\n") or b"forktest" not in got:
        raise Wrong(f"Python prints {got!r}")
    said = run([python, "-m", "pip", "--disable-pip-version-check", "show", "cathompi"]).decode()
    return f"{names[0].name} in a new venv, version {re.search(r'Version: (.*)', said)[1]}"


def without_library(at):
    """The package without a library says in a line how to get one."""
    shutil.copytree(TOP / "bindings" / "python" / "cathompi", at / "bare" / "cathompi", ignore=shutil.ignore_patterns("*.so"))
    done = subprocess.run([sys.executable, "-c", "import cathompi"], cwd=at / "bare", capture_output=True, text=True)
    last = done.stderr.strip().splitlines()[-1:]
    if not last or not last[0].startswith("ImportError") or "wheel" not in last[0]:
        raise Wrong(f"without a library the import says {last}")
    return "without a library the import says how to get it"


def c_example(at):
    need("cc", "pkg-config")
    how = {**os.environ, "PKG_CONFIG_PATH": str(at / "lib" / "pkgconfig")}
    flags = run(["pkg-config", "--cflags", "--libs", "xv6"], env=how).decode().split()
    shown = []
    for name, words in (("shared", flags), ("static", [it for it in flags if not it.startswith("-l")] + [str(at / "lib" / "libxv6.a")])):
        run(["cc", "-std=c99", "-Wall", "-Wextra", "-pedantic", "-Werror", "example.c", *words, "-o", name], cwd=at)
        shown.append(run([at / name, "xv6.img"], cwd=at, env={**os.environ, "LD_LIBRARY_PATH": str(at / "lib")}))
    if shown[0] != shown[1] or not shown[0].endswith(b"$ echo hi | cat\nhi\n$ \n"):
        raise Wrong(f"the C example prints {shown}")
    return "example.c by pkg-config, with libxv6.so and libxv6.a"


def texts(at):
    tried = []
    for tool, words in (
        ("groff", ["groff", "-man", "-Tascii", "-ww", at / "man" / "man1" / "xv6.1"]),
        ("bash", ["bash", "-c", f"source {at}/completions/xv6.bash; COMP_WORDS=(xv6 mk); COMP_CWORD=1; _xv6; [ \"$COMPREPLY\" = mkfs ]"]),
        ("zsh", ["zsh", "-n", at / "completions" / "_xv6"]),
        ("fish", ["fish", "--no-execute", at / "completions" / "xv6.fish"]),
    ):
        if shutil.which(tool):
            run(words)
            tried.append(tool)
    if "bash" not in tried:
        raise Wrong("there is no bash")
    return f"man page and completions, by {', '.join(tried)}"


def page(at):
    need("chromium")
    sys.path.insert(0, str(TOP / "web"))
    from browser import Browser

    with Browser() as browser:
        browser.size(1400, 900)
        browser.open((at / "xv6.html").as_uri())
        browser.wait("document.getElementById('screen') && document.getElementById('screen').textContent.endsWith('$ ')", "the first prompt")
        browser.js("document.getElementById('keys').focus()")
        browser.type("echo hi | cat\n")
        browser.wait("document.getElementById('screen').textContent.includes('hi | cat\\nhi\\n$ ')", "what the shell prints")
        if browser.faults:
            raise Wrong(f"the page complains: {browser.faults}")
    return "the page in Chromium, at whose shell a line is typed"


def main(words):
    if len(words) != 1 or words[0].startswith("-"):
        print(__doc__.strip())
        return 0 if words in (["-h"], ["--help"]) else 2
    if not (pathlib.Path(words[0]) / "SHA256SUMS").is_file():
        print(f"check-release: there is no release in {words[0]}: make release", file=sys.stderr)
        return 1
    bad = 0
    with tempfile.TemporaryDirectory() as name:
        at = pathlib.Path(name) / "release"
        shutil.copytree(words[0], at)
        for check in (sums, program, alone, wheel, without_library, c_example, texts, page):
            try:
                print(f"check-release: {check(at)}", flush=True)
            except (Wrong, OSError, TimeoutError) as wrong:
                print(f"check-release: {check.__name__}: FAILED: {wrong}", flush=True)
                bad = 1
    print("check-release: all as wanted" if not bad else "check-release: not all as wanted")
    return bad


if __name__ == "__main__":
    sys.exit(main(sys.argv[1:]))
