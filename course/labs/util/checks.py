"""What the tests of lab util look at that no key of a rubric says."""
import random


def processes(run, name):
    """The pids of the processes that ended as this program."""
    return [end.pid for end in run.trace.exits if end.program == name]


def calls(run, pid, name):
    """A process's calls of a name that returned, in their order."""
    return [call for call in run.trace.calls if call.pid == pid and call.name == name and call.result is not None]


def printed(run, pid):
    """What a process wrote to descriptor 1."""
    return "".join(call.more["data"] or "" for call in calls(run, pid, "write") if call.arguments[0] == 1)


def forks(run, name):
    """(parent, child) of each fork among the processes of a program."""
    pids = processes(run, name)
    return [(pid, call.result) for pid in pids for call in calls(run, pid, "fork") if call.result in pids]


def reads(run, pid):
    """The calls by which a process got bytes."""
    return [call for call in calls(run, pid, "read") if call.result > 0]


def sends(run, pid):
    """The calls by which it wrote to a descriptor of its own."""
    return [call for call in calls(run, pid, "write") if call.arguments[0] > 2 and call.result > 0]


# ---- sleep


def slept(run):
    """The ticks of each call of sleep, for each process of that name."""
    return [[call.arguments[0] for call in calls(run, pid, "sleep")] for pid in processes(run, "sleep")]


def slept_exactly(run):
    wanted, found = int(run.values.drawn["count"]), [sum(ticks) for ticks in slept(run)]
    return None if found == [wanted] else f"sleep {wanted} slept for {found} ticks"


def slept_once(run):
    return None if slept(run) == [[6]] else f"sleep 6 is one call of sleep, with 6; here the calls had {slept(run)}"


def slept_in_turn(run):
    wanted = [[int(run.values.drawn[name])] for name in ("first", "second")]
    return None if slept(run) == wanted else f"the calls of sleep had {slept(run)}, not {wanted}"


# ---- pingpong


def two_lines(run):
    return None if len(run.lines) == 2 else f"it printed {len(run.lines)} lines"


def the_two(run):
    """Parent and child of a run of pingpong, if there is one of each."""
    family = forks(run, "pingpong")
    return family[0] if len(family) == 1 else None


def lines_have_pids(run):
    family = the_two(run)
    if not family:
        return "there are not two processes, parent and child"
    for pid, word in zip(family, ("pong", "ping")):
        wanted = f"{pid}: received {word}\n"
        if printed(run, pid) != wanted:
            return f"process {pid} printed {printed(run, pid)!r} and not {wanted!r}"
    return None


def reads_before_it_prints(run, pid):
    prints = [call.at for call in calls(run, pid, "write") if call.arguments[0] == 1]
    return bool(reads(run, pid) and prints and reads(run, pid)[0].at < prints[0])


def bytes_go_both_ways(run):
    family = the_two(run)
    if not family:
        return "there are not two processes, parent and child"
    for pid, who in zip(family, ("the parent", "the child")):
        if not reads_before_it_prints(run, pid):
            return f"{who} prints before it has read a byte"
        if not sends(run, pid):
            return f"{who} writes no byte to a pipe"
    parent, child = family
    if sends(run, child)[0].at < reads(run, child)[0].at:
        return "the child sends its byte before the parent's has come"
    if reads(run, parent)[0].at < sends(run, child)[0].at:
        return "the parent reads its own byte"
    return None


# ---- primes


def primes_up_to(last):
    primes = []
    for number in range(2, last + 1):
        if all(number % prime for prime in primes):
            primes.append(number)
    return primes


def primes_to(run, last):
    wanted = "".join(f"prime {number}\n" for number in primes_up_to(last))
    return None if run.output == wanted else f"it printed {run.output!r} and not {wanted!r}"


def primes_to_last(run):
    return primes_to(run, int(run.values.drawn["last"]))


def primes_to_280(run):
    return primes_to(run, 280)


def a_process_each(run):
    """The process of a prime prints it, and reads all numbers that no smaller prime divides, of four bytes each."""
    last = int(run.values.drawn["last"])
    left, lines = list(range(2, last + 1)), {pid: printed(run, pid) for pid in processes(run, "primes")}
    for prime in primes_up_to(last):
        own = [pid for pid, line in lines.items() if line == f"prime {prime}\n"]
        if len(own) != 1:
            return f"no process prints prime {prime} alone"
        count = sum(call.result for call in reads(run, own[0])) // 4
        if count < len(left):
            return f"the process of {prime} read {count} numbers and not {len(left)}"
        left = [number for number in left if number % prime]
    return None


# ---- find


def odd_names(run):
    name, dotted = run.values.names[:2]
    wanted = {f"./.{dotted}", f"./x/y/.{dotted}", f"./x/..{dotted}"}
    found = set((run.file("/out") or b"").decode("latin-1").splitlines())
    if found != wanted:
        return f"of names that begin with dots it printed {sorted(found)} and not {sorted(wanted)}"
    wanted = {f"./abcde{name}fghi", f"./x/abcde{name}fghi"}
    found = {line for line in run.console.splitlines() if line.startswith("./")}
    return None if found == wanted else f"of names of 14 bytes it printed {sorted(found)} and not {sorted(wanted)}"


def many_directories(values):
    """Sixteen directories, in two of which the name is."""
    files = {f"/d{number:02}/{values.names[1]}": b"" for number in range(16)}
    return files | {f"/{directory}/{values.names[0]}": b"" for directory in ("d03", "d15")}


def a_large_directory(values):
    """A directory of three blocks with the name at its end."""
    return {f"/many/n{number}": b"" for number in range(130)} | {f"/many/{values.names[0]}": b""}


# ---- xargs


def children_start_none(run):
    pids = processes(run, "xargs")
    first = min(pids, default=0)
    count = len(calls(run, first, "fork"))
    busy = [pid for pid in pids if pid != first and (calls(run, pid, "fork") or calls(run, pid, "read"))]
    if busy:
        return f"a child of xargs, process {busy[0]}, goes on as xargs where its command isn't there"
    return None if count == 3 else f"xargs started {count} children for three lines"


def a_long_line(values):
    """A line of 24 words of nine letters."""
    chance = random.Random(values.names[0])
    words = ["".join(chance.choice("abcdefghijklmnopqrstuvwxyz") for _ in range(9)) for _ in range(24)]
    return {"/in": (" ".join(words) + "\n").encode()}


def many_lines(values):
    """25 lines of 28 bytes."""
    chance = random.Random(values.names[0])
    lines = ["".join(chance.choice("abcdefghijklmnopqrstuvwxyz") for _ in range(27)) + "\n" for _ in range(25)]
    return {"/in": "".join(lines).encode()}


def all_lines(run):
    lines = (run.file("/in") or b"").decode("latin-1").splitlines()
    found = [line.removeprefix("[args][").removesuffix("]") for line in run.lines]
    return None if found == lines else f"of {len(lines)} lines it handed on {len(found)}, and not the same ones"


def all_words(run):
    words = (run.file("/in") or b"").decode("latin-1").split()
    wanted = "[args][x]" + "".join(f"[{word}]" for word in words) + "\n"
    return None if run.output == wanted else f"it printed {run.output!r} and not {wanted!r}"
