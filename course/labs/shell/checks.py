"""What the tests of lab shell look at that no key of a rubric says."""
import re


def texts(run, path):
    return (run.file(path) or b"").decode("latin-1")


def one_shell(run):
    count = run.console.count("init: starting sh\n")
    return None if count == 1 else f"the shell has ended: init has started {count}"


def not_run(run):
    return "the command was run" if "\n[args]" in run.console else None


def complained(run):
    one, two, three = run.values.names[:3]
    for name in (one, two):
        if not re.search(rf"^(?!\$).*{name}", run.console, re.M):
            return f"no line says that {name} is no command"
    return None if run.output == f"{three}\n" else f"then it printed {run.output!r}"


def cd_works(run):
    three, four = run.values.names[2:4]
    if three not in texts(run, "/out"):
        return "cd into a directory, and from there into the next one, didn't lead there"
    if three not in texts(run, "/last"):
        return "cd / didn't lead back"
    return None if re.search(rf"^(?!\$).*{four}", run.console, re.M) else "no line says that there is no such directory"


def poured(run):
    count = len(texts(run, "/out"))
    return None if count == 4000 else f"of 4000 bytes {count} came through"


def groups_work(run):
    one, two, four = run.values.names[0], run.values.names[1], run.values.names[3]
    if texts(run, "/out") != f"{one}\n{two}\n":
        return f"the group's output was {texts(run, '/out')!r}"
    if four not in texts(run, "/out2"):
        return "cd in a group didn't lead there"
    return None if texts(run, "/out3").split()[:1] == ["3"] else f"wc counted {texts(run, '/out3')!r} of three lines"


def nothing_is_run(run):
    lines = run.console.splitlines()
    for name in run.values.names[:3]:
        if name in lines:
            return f"a line with a fault was run: it printed {name}"
    others = ("$ ", "init:", run.values.names[3])
    complaints = [line for line in lines if line and not line.startswith(others)]
    if len(complaints) != 3:
        return f"of three lines with faults {len(complaints)} were complained about"
    return None if run.output == f"{run.values.names[3]}\n" else f"then it printed {run.output!r}"


def not_on_the_console(run):
    lines, names = run.console.splitlines(), run.values.names
    if names[1] in lines or names[2] in lines:
        return "the command was run, and wrote elsewhere"
    return None if run.output == f"{names[4]}\n" else f"then it printed {run.output!r}"


def all_parts(run):
    """The first line: the file is there whole when cat reads it."""
    names = run.values.names
    found = [line for line in run.console.splitlines() if line in (names[0], names[1])]
    return None if found == [names[1], names[0]] else f"the first line printed {found} and not {[names[1], names[0]]}"
