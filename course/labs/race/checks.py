"""What the tests of lab race look at that no key of a rubric says."""
import re


def commands(run):
    """The lines of the submission's script, in words."""
    text = (run.folder / run.test.script).read_text(errors="replace")
    return [line.split(" ", 1) for line in text.splitlines() if line.strip()]


def types_alone(run, wanted):
    """Whether the script types this line once, and no other key."""
    typed = [words for words in commands(run) if words[0] in ("type", "keys")]
    return None if typed == [["type", wanted]] else f"the script has to type {wanted}, once, and no other key"


def ticks(run):
    return sum(int(words[1]) for words in commands(run) if words[0] == "tick")


def at_most(run, wanted, most):
    wrong = types_alone(run, wanted)
    if wrong:
        return wrong
    return None if ticks(run) <= most else f"the script has {ticks(run)} ticks, and {most} suffice"


def two_ticks(run):
    return at_most(run, "count", 2)


def few_ticks(run):
    return at_most(run, "count", 4)


def both_wait(run):
    wrong = at_most(run, "meet", 2)
    if wrong:
        return wrong
    if run.console != "init: starting sh\n$ meet\n":
        return f"the console shows {run.console!r}"
    waits = [it["waits"] for it in run.report["processes"] if (it["program"] or "").strip("/") == "meet"]
    stuck = [it for it in waits if it and it["call"] == "read" and it["kind"] == "bytes"]
    return None if len(stuck) == 2 else f"{len(stuck)} of the two processes wait for a byte"


# ---- counter


def calls(run, pid, *names):
    return [call for call in run.trace.calls if call.pid == pid and call.name in names and call.result is not None]


def numbers(run):
    """The children and times that were asked for."""
    return [int(word) for word in re.findall(r"\d+", run.values.fill(run.test.typed[-1]))]


def all_work(run):
    """Each child opens the file as often as it adds, and all are started before the first one is waited for."""
    count, times = numbers(run)
    if run.output != f"{count * times}\n":
        return f"it printed {run.output!r} and not {count * times}"
    pids = [end.pid for end in run.trace.exits if end.program == "counter"]
    parent = min(pids)
    order = [call.name for call in calls(run, parent, "fork", "wait")]
    if order[:count] != ["fork"] * count:
        return f"the parent waits before it has started all {count} children"
    for pid in pids:
        opened = [call for call in calls(run, pid, "open") if call.more.get("path", "").strip("/") == "number"]
        if pid != parent and len(opened) < times:
            return f"child {pid} has opened the file {len(opened)} times, and adds {times} times"
    return None
