#!/usr/bin/env python3
"""hostile.py PROGRAM [STREAMS] [SEED]: whatever bytes come, `PROGRAM gdb` shows the run of its script.

Each of STREAMS streams (10,000, if left out) has packets as gdb sends them, and others with wrong sums, lengths, ranges and numbers
of 40 digits, bodies that are too long, loose bytes, and maybe an end in mid-packet. After it the program is asked for its time, and
for the registers and the memory of each process: they are those of that time. It ends only by closed input, `k`, `vKill` or a peer
without `multiprocess+`, with status 0, and takes little more memory than a session that asks for nothing.
"""
import pathlib
import random
import re
import resource
import subprocess
import sys
import tempfile

import check

STEPS = 420
PAGES = 4
# How many processes the run has, at most.
PROCESSES = 2
# The longest body that is read, and how many seconds and megabytes a stream may take beside a session that only looks.
MOST = 16384
SECONDS = 120
MEGABYTES = 24

WORDS = (
    "? ! g bs bc qC qAttached qfThreadInfo qsThreadInfo qHostInfo qProcessInfo QStartNoAckMode vCont? vMustReplyEmpty vCont;c "
    "vCont;s:p1.1 vCont;s:p2.2;c vCont;r0,100:p2.2 vCont;t vRun; D;1 D;2 Hg0 Hgp1.1 Hgp2.2 Hgp-1.-1 Hc0 Hcp2.2 Hc-1 Tp1.1 Tp9.9 "
    "p0 p20 p21 pff m0,1000 m1000,10 m3fff,2 mffffffffffffffff,10 m0,ffffffffffffffff M0,1:00 X0,0: G00 P0=00 Z0,a8,4 z0,a8,4 "
    "Z1,54,4 Z2,1010,8 z2,1010,8 Z2,0,ffffffff Z3,1010,4 z3,1010,4 Z4,1000,10 Z5,0,0 Z0,54,4;X3,220127 Z0,54,4;Xff,00 qThreadExtraInfo,p2.2 "
    "qAttached:1 vFile:setfs:0 vFile:open:2f696e6974,0,0 vFile:open:zz,0,0 vFile:fstat:1 vFile:fstat:ff vFile:pread:1,100,0 "
    "vFile:pread:1,ffffffff,0 vFile:pread:1,10,ffffffffffffffff vFile:close:1 qXfer:exec-file:read:1:0,100 qXfer:exec-file:read:9:0,100 "
    "qXfer:features:read:target.xml:0,100 qXfer:features:read:target.xml:ffff,ffffffff qSupported:multiprocess+;swbreak+"
).split()
ORDERS = (
    "ps", "when", "help", "stop-at event 100", "stop-at event " + "9" * 40, "stop-at call write", "stop-at call none", "stop-at exit off",
    "stop-at output counted", "stop-at output", "type abc", "\x00\xff", "x" * 3000,
)
NUMBERS = ("0", "1", "ffffffff", "100000000", "ffffffffffffffff", "10000000000000000", "7" * 40, "-1", "-", "", "g")


def framed(body, shift=0):
    """A frame; the sum is wrong where it is shifted."""
    return b"$%s#%02x" % (body, (sum(body) + shift) % 256)


def known(chance):
    """A body that gdb may send."""
    if chance.random() < 0.2:
        return b"qRcmd," + chance.choice(ORDERS).encode("latin-1").hex().encode()
    return chance.choice(WORDS).encode()


def bent(chance, body):
    """A body with a number, or some bytes, in place of others."""
    kind = chance.randrange(5)
    if kind == 0 and b"," in body:
        front, _, rest = body.partition(b",")
        return front + b"," + chance.choice(NUMBERS).encode() + rest[chance.randrange(len(rest) + 1) :]
    if kind == 1:
        return body[: chance.randrange(len(body) + 1)]
    if kind == 2:
        return body + chance.choice(NUMBERS).encode()
    if kind == 3:
        at = chance.randrange(len(body) + 1)
        return body[:at] + chance.choice((b",", b";", b":", b".", b"p", b"}", b"\x00")) + body[at:]
    return chance.randbytes(chance.randrange(40))


def piece(chance):
    """A frame, or what is none."""
    kind = chance.randrange(12)
    if kind < 5:
        return framed(known(chance))
    if kind < 8:
        return framed(bent(chance, known(chance)))
    if kind == 8:
        return framed(known(chance), chance.randrange(1, 256))
    if kind == 9:
        return chance.choice((b"+", b"-", b"\x03", b"$", b"#", b"##", b"}}", b"$$g#67", b"$g#6", b"$g#zz", b"$#00"))
    if kind == 10:
        return chance.randbytes(chance.randrange(20))
    return framed(b"m" + b"0" * chance.choice((MOST - 1, MOST, 3 * MOST)) if chance.random() < 0.1 else known(chance))


def stream_of(chance):
    """The bytes of a stream, maybe with an end in mid-packet."""
    begin = framed(b"qSupported:multiprocess+;swbreak+;fork-events+;exec-events+") if chance.random() < 0.7 else b""
    pieces = [piece(chance) for _ in range(chance.randint(1, 12))]
    if chance.random() < 0.05:
        pieces.append(framed(chance.choice((b"k", b"vKill;1", b"vKill;a", b"qSupported:swbreak+", b"qSupported:"))))
    last = framed(known(chance))
    return begin + b"".join(pieces) + (last[: chance.randrange(len(last))] if chance.random() < 0.3 else b"")


def bodies_in(data):
    """The bodies that have the right sum, as a reader by the protocol finds them."""
    at, bodies = 0, []
    while at < len(data):
        if data[at] != ord("$"):
            at += 1
            continue
        begin = end = at + 1
        while end < len(data) and data[end] != ord("#"):
            if data[end] == ord("$"):
                begin = end + 1
            end += 1
        body, digits = data[begin:end], data[end + 1 : end + 3]
        if len(digits) == 2 and digits.lower() == b"%02x" % (sum(body) % 256):
            bodies.append(re.sub(b"}(.)", lambda it: bytes([it[1][0] ^ 0x20]), body, flags=re.DOTALL))
        at = end + 3
    return bodies


def may_end(body):
    """Whether a body may end the program."""
    return body == b"k" or body.startswith(b"vKill") or body.startswith(b"qSupported") and b"multiprocess+" not in body.split(b":")[-1].split(b";")


def questions():
    """What is asked last: the time, and what is shown of each process."""
    yield order("when")
    for pid in range(1, PROCESSES + 1):
        yield b"Hgp%x.%x" % (pid, pid)
        yield b"g"
        for page in range(PAGES):
            yield b"m%x,1000" % (4096 * page)


def answers(output):
    """The bodies of the program's frames; console bytes are left out."""
    bodies, at = [], output.find(b"$")
    while at >= 0:
        end = output.find(b"#", at)
        body = output[at + 1 : end]
        if body == b"OK" or not body.startswith(b"O"):
            bodies.append(re.sub(b"}(.)", lambda it: bytes([it[1][0] ^ 0x20]), body, flags=re.DOTALL))
        at = output.find(b"$", end)
    return bodies


def order(text):
    """What gdb's `monitor` sends."""
    return b"qRcmd," + text.encode().hex().encode()


def told(program, folder, image, data):
    """A session that gets these bytes, up to its end."""
    words = [program, "gdb", "--memory", "8", image, "script"]
    return subprocess.run(words, cwd=folder, input=data, stdout=subprocess.PIPE, stderr=subprocess.PIPE, timeout=SECONDS)


def time_in(answer):
    """The time in an answer to `monitor when`."""
    return int(bytes.fromhex(answer.decode()).split()[1])


def shown_at_all_times(program, folder, image):
    """What each time of the script shows, as a session answers it that only goes on from the first, which is after one event."""
    asked = list(questions())
    bodies = [b"qSupported:multiprocess+;swbreak+", order("stop-at exit off"), *asked]
    for time in range(2, STEPS + 1):
        bodies += [order(f"stop-at event {time}"), b"vCont;c", *asked]
    found = answers(told(program, folder, image, b"".join(map(framed, bodies))).stdout)
    shown = {}
    for at in range(2, len(found), len(asked) + 2):
        one = found[at : at + len(asked)]
        shown[time_in(one[0])] = one[1:]
    return shown


def try_stream(program, folder, image, data, shown):
    """What is wrong after a stream, if anything; and whether its time was compared."""
    asked = list(questions())
    # Sums that end a packet that was not whole.
    tail = b"#00#00" + framed(b"qSupported:multiprocess+") + b"".join(map(framed, asked))
    done = told(program, folder, image, data + tail)
    if done.returncode != 0:
        return f"status {done.returncode}, {done.stderr[-200:]!r}", False
    found = answers(done.stdout)[-len(asked) :]
    is_whole = len(found) == len(asked) and found[0].startswith(b"6166746572")
    if not is_whole:
        return (None if any(map(may_end, bodies_in(data))) else f"it ended: {found[:1]!r}"), False
    time = time_in(found[0])
    if time not in shown:
        return None, False
    return (None if found[1:] == shown[time] else f"event {time}: another state"), True


def main():
    program = str(pathlib.Path(sys.argv[1]).resolve())
    streams = int(sys.argv[2]) if len(sys.argv) > 2 else 10_000
    seed = sys.argv[3] if len(sys.argv) > 3 else "1"
    chance = random.Random(seed)
    bad = compared = 0
    with tempfile.TemporaryDirectory() as temporary:
        folder = pathlib.Path(temporary)
        image = check.make_image(program, ["ring"], folder)
        (folder / "script").write_text(f"step {STEPS}\n")
        shown = shown_at_all_times(program, folder, image)
        try_stream(program, folder, image, b"", shown)
        least = resource.getrusage(resource.RUSAGE_CHILDREN).ru_maxrss
        for number in range(streams):
            data = stream_of(chance)
            fault, is_compared = try_stream(program, folder, image, data, shown)
            compared += is_compared
            if fault:
                bad += 1
                print(f"stream {number}: {fault}: {data!r}", flush=True)
        more = (resource.getrusage(resource.RUSAGE_CHILDREN).ru_maxrss - least) / 1024
    print(f"{streams} streams, {compared} of them compared, {bad} bad, {more:.1f} MB more, seed {seed}")
    return 1 if bad or more > MEGABYTES else 0


if __name__ == "__main__":
    sys.exit(main())
