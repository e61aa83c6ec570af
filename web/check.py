#!/usr/bin/env python3
"""check.py PAGE PROGRAM IMAGE FOLDER: uses the page in a browser without a window, at two widths, and compares what its terminal shows with the
console that PROGRAM, the built xv6, gives of the same events, and its files with what that leaves. FOLDER gets pictures of each view, which are
compared with those of web/pictures; with KEEP=1 they are kept there instead. Where Firefox is there, it is used too."""
import base64
import hashlib
import json
import os
import pathlib
import random
import subprocess
import sys
import tempfile
import zlib

from browser import SLOW, Browser
from firefox import Firefox
from make_page import UNPACK, joined

HERE = pathlib.Path(__file__).resolve().parent
PORTRAIT = HERE.parent / "docs" / "page.png"
WIDTHS = {1280: 800, 390: 844}
KEPT = HERE / "pictures"
KEPT_SCALE = 8
CELL, CELL_OTHER = 3, 12  # pixels of a kept picture, and by how much of 255 the colours of a cell may differ
# The share of a picture's cells that may differ from the kept one: in Chromium, and in Firefox, whose letters are others.
MOST_OTHER = {"": 0.006, "firefox-": 0.08}
# A paused machine: a directory was made, and of two programs one has written to the other.
STILL = "step 5000\ntype mkdir d\nstep 5000\ntype echo hi | cat\nstep 758\n"
ACCESS = f"(() => {{ {(HERE / 'access.js').read_text().replace('export ', '')}\nreturn broken(); }})()"
# A picture made small, as one is kept.
LOADED = """const loaded = (text) => new Promise((done) => {
    const image = new Image();
    image.onload = () => done(image);
    image.src = "data:image/png;base64," + text;
  });
  const drawn = (image, wide, tall) => {
    const pen = new OffscreenCanvas(wide, tall).getContext("2d");
    pen.imageSmoothingQuality = "high";
    pen.drawImage(image, 0, 0, wide, tall);
    return pen;
  };"""
SMALL = f"""(async () => {{
  {LOADED}
  const image = await loaded(PICTURE);
  const [wide, tall] = [image.width, image.height].map((pixels) => Math.round(pixels / {KEPT_SCALE}));
  const blob = await drawn(image, wide, tall).canvas.convertToBlob();
  return btoa(String.fromCharCode(...new Uint8Array(await blob.arrayBuffer())));
}})()"""
# The share of the cells of a kept picture and another one that differ, and their heights by their widths.
COMPARE = f"""(async () => {{
  {LOADED}
  const [one, two] = await Promise.all([KEPT, PICTURE].map(loaded));
  const [wide, tall] = [one.width, one.height];
  const [first, second] = [one, two].map((image) => drawn(image, wide, tall).getImageData(0, 0, wide, tall).data);
  const mean = (data, x, y, part) => {{
    let sum = 0;
    for (let at = 0; at < {CELL ** 2}; at += 1) sum += data[4 * ((y + Math.floor(at / {CELL})) * wide + x + (at % {CELL})) + part];
    return sum / {CELL ** 2};
  }};
  let [other, all] = [0, 0];
  for (let y = 0; y + {CELL} <= tall; y += {CELL}) {{
    for (let x = 0; x + {CELL} <= wide; x += {CELL}, all += 1) {{
      if ([0, 1, 2].some((part) => Math.abs(mean(first, x, y, part) - mean(second, x, y, part)) > {CELL_OTHER})) other += 1;
    }}
  }}
  return [other / all, one.height / one.width, two.height / two.width];
}})()"""
VIEWS = ("run", "inside", "disk")
COURSE = HERE.parent / "course"
HELLO = COURSE / "first_week" / "hello"
LINES = ["ls", "echo hi | cat", "mkdir d", "ls"]
PASTED = "echo one > a\necho two > b\r\ncat a b\n" + "echo " + " ".join(["word"] * 8) + "\n"
IDLE = "document.getElementById('status').textContent.startsWith('runs') && [...document.querySelectorAll('#processes tr')].every((row) => row.dataset.state === 'waiting')"
PROMPT = "document.getElementById('screen').textContent.endsWith('$ ')"
WORDS = 4000
SEEDS = 60
JOURNEYS, MOVES = 20, 40
TYPED = ["ls", "echo hi | cat", "mkdir d", "cat init", "rm cat", "ln sh x", "forktest", "kill 2", "echo a b c", "ls | cat", "nope", "\x08\x15x\x04"]
PLAY = f"""(async () => {{
{UNPACK}
const [code, image] = await Promise.all(["packed-module", "packed-image"].map(unpack));
{joined("driver", set())}
const module = await machine.loadModule(code);
return SCRIPTS.map((script) => {{
  const plain = new driver.Driver(module, image, 256, record.eventsOf(script));
  plain.seek(plain.end);
  const bytes = plain.text;
  // Looked at step by step, back, and there again: the same.
  const looked = new driver.Driver(module, image, 256, record.eventsOf(script));
  looked.pause();
  while (!looked.isAtEnd && !looked.halt) looked.playRecorded(1000);
  const same = [looked.text];
  looked.seek(looked.end >> 1);
  looked.seek(looked.end);
  same.push(looked.text);
  for (const one of [plain, looked]) one.close();
  if (same.some((text) => String(text) !== String(bytes))) throw new Error("another way, other bytes: " + script);
  return bytes;
}});
}})()"""


TRAVEL = f"""(async () => {{
{UNPACK}
const [code, image] = await Promise.all(["packed-module", "packed-image"].map(unpack));
{joined("journeys", set())}
const module = await machine.loadModule(code);
for (let seed = 1; seed <= {JOURNEYS}; seed += 1) journeys.journey(module, image, seed, {MOVES});
}})()"""
# What the page says of /crash.
CRASH = "process 3 ended: ld a0, 0(t0) at 0x8: a load of 8 bytes from 0x5000: the process has no page there, its 3 pages end at 0x3000"
MANY = 10_000_000
# Whether the pictures are kept, and compared by the next run.
KEEP = os.environ.get("KEEP", "") not in ("", "0")
# The milliseconds that it takes to be back by one event, from ten positions.
BACKS = """[...Array(10).keys()].map((index) => {
  const bar = document.getElementById("position");
  const go = (position) => { bar.value = String(position); bar.dispatchEvent(new Event("input")); };
  go(Math.floor((Number(bar.max) * (index + 1)) / 10));
  const begin = performance.now();
  document.querySelector("[data-back=step]").click();
  return performance.now() - begin;
})"""
# The texts whose contrast to their ground is too small.
CONTRAST = """(() => {
  const parts = (text) => text.match(/[\\d.]+/g).map(Number);
  const light = (text) => {
    const [red, green, blue] = parts(text).map((part) => (part /= 255) <= 0.03928 ? part / 12.92 : ((part + 0.055) / 1.055) ** 2.4);
    return 0.2126 * red + 0.7152 * green + 0.0722 * blue;
  };
  const behind = (position) => {
    for (let it = position; it; it = it.parentElement) {
      const colour = getComputedStyle(it).backgroundColor;
      if ((parts(colour)[3] ?? 1) > 0.99) return colour;
    }
    return "rgb(255, 255, 255)";
  };
  const bad = new Set();
  const walker = document.createTreeWalker(document.body, NodeFilter.SHOW_TEXT);
  while (walker.nextNode()) {
    const position = walker.currentNode.parentElement;
    if (!walker.currentNode.data.trim() || position.offsetParent === null || position.closest("script, .spoken, :disabled")) continue;
    const [one, two] = [light(getComputedStyle(position).color), light(behind(position))].sort((a, b) => b - a);
    const ratio = (one + 0.05) / (two + 0.05);
    if (ratio < 7) bad.add(`${position.tagName}.${position.className}#${position.id}: ${ratio.toFixed(2)}`);
  }
  return [...bad];
})()"""


def script_of(address):
    """The script in a link."""
    letters = address.split("#session=")[1].split("&")[0]
    text = zlib.decompress(base64.urlsafe_b64decode(letters + "=" * (-len(letters) % 4)), -15).decode()
    return text.split("\n", 1)[1]


class Check:
    """The page in a browser, and the program beside it."""

    def __init__(self, browser, page, program, image, folder, name=""):
        self.browser, self.page, self.name = browser, pathlib.Path(page).resolve(), name
        self.address = self.page.as_uri()
        self.program, self.image = str(pathlib.Path(program).resolve()), str(pathlib.Path(image).resolve())
        self.pictures, self.folder = pathlib.Path(folder), pathlib.Path(tempfile.mkdtemp(dir=browser.folder))

    def equal(self, got, wanted, what):
        if got != wanted:
            raise SystemExit(f"{what}: the page has\n{got!r}\nand not\n{wanted!r}")
        print(f"  {what}")

    # ---- the page

    def settle(self, what):
        """Waits until nobody runs, and the page shows that."""
        self.browser.wait(f"{PROMPT} && {IDLE}", what)
        self.browser.js("new Promise((done) => setTimeout(done, 300))")

    def start(self, address, width, dark=False):
        self.browser.size(width, WIDTHS[width], dark)
        self.browser.open(address)
        self.browser.wait(f"document.getElementById('screen') && {PROMPT}", "the first prompt")
        self.settle("the first prompt")

    def look(self, view):
        """Shows a view."""
        self.browser.click(f"#tab-{view}")
        self.rest(300)

    def rest(self, milliseconds):
        self.browser.js(f"new Promise((done) => setTimeout(done, {milliseconds}))")

    def text(self, name):
        return self.browser.js(f"document.getElementById({json.dumps(name)}).innerText")

    def said(self, text, what):
        """Waits until the page says something."""
        self.browser.wait(f"document.getElementById('said').textContent.includes({json.dumps(text)})", what)

    def to_terminal(self):
        """Gives the terminal the focus, which the link's field has after a link."""
        self.browser.js("document.getElementById('keys').focus()")

    def enter(self, line):
        """Types a line at the shell, which has to do what it says."""
        self.look("run")
        self.to_terminal()
        before = self.screen()
        self.browser.type(line + "\n")
        self.settle(line)
        if not self.screen().startswith(f"{before}{line}\n"):
            raise SystemExit(f"{line} did not come: {self.screen()!r}")

    def screen(self):
        return self.browser.js("document.getElementById('screen').textContent")

    def link(self):
        """The link to the session, and the script in it."""
        self.browser.js("document.getElementById('link').value = ''")
        self.browser.click("#make-link")
        self.browser.wait("document.getElementById('link').value.includes('#session=')", "the link")
        address = self.browser.js("document.getElementById('link').value")
        return address, script_of(address)

    # ---- the program

    def run(self, script, ends="running\n"):
        """What the program prints of a script that ends like that, or anyhow, and the image that it leaves."""
        (self.folder / "script").write_text(script)
        left = self.folder / "left.img"
        words = [self.program, "run", "--frames", "256", "--save", str(left), self.image, str(self.folder / "script")]
        done = subprocess.run(words, capture_output=True, check=False)
        if ends and done.stderr.decode() != ends:
            raise SystemExit(f"the program says {done.stderr!r}")
        return done.stdout, left.read_bytes()

    @staticmethod
    def shown(console):
        """The console's bytes as a terminal shows them."""
        cells = []
        for byte in console.decode():
            if byte == "\b":
                cells.pop()
            else:
                cells.append(byte if byte >= " " or byte in "\t\n" else f"^{chr(ord(byte) + 64)}")
        return "".join(cells)

    # ---- what is tried

    def lines(self):
        for line in LINES:
            self.enter(line)
        console, _ = self.run(self.link()[1])
        self.equal(self.screen(), self.shown(console), "four lines")

    def edits(self):
        """Keys that take back, and those that are the page's."""
        self.to_terminal()
        self.browser.type("lx")
        self.browser.press("h", control=True)
        self.browser.press("u", control=True)
        self.browser.press("c", control=True)
        self.browser.type("echo back\n")
        # A phone's keyboard gives texts, and takes back what the text field holds.
        self.browser.call("Input.insertText", text="echo textz")
        self.browser.js("(() => { const keys = document.getElementById('keys'); keys.value = ''; keys.dispatchEvent(new InputEvent('input')); })()")
        self.browser.call("Input.insertText", text="\n")
        self.settle("keys that take back")
        if "\ntext\n$ " not in self.screen():
            raise SystemExit(f"no text came: {self.screen()!r}")
        console, _ = self.run(self.link()[1])
        self.equal(self.screen(), self.shown(console), "keys that take back")

    def pastes(self):
        self.to_terminal()
        self.browser.paste(PASTED)
        self.browser.wait("document.getElementById('screen').textContent.includes('one\\ntwo\\n')", "what was pasted")
        self.settle("what was pasted")
        console, _ = self.run(self.link()[1])
        self.equal(self.screen(), self.shown(console), "a paste of four lines")
        if "one\ntwo\n$ echo word" not in self.screen():
            raise SystemExit("the paste did not come whole")

    def files(self):
        """A file comes down as it is on the image, another goes up and comes down again."""
        self.browser.js("new Promise((done) => setTimeout(done, 1100))")
        self.browser.click('[id="save-/init"]')
        init = self.browser.downloaded("init")
        self.equal(init, (HERE.parent / "out/user/init").read_bytes(), "/init comes down")
        given = bytes(range(256)) * 3 + b"\x04\x15"
        (self.folder / "given.bin").write_bytes(given)
        self.browser.give_file("#file-input", self.folder / "given.bin")
        self.browser.wait("document.getElementById('said').textContent === 'given.bin is on the disk'", "the file that was added")
        self.browser.wait("document.getElementById('save-/given.bin') !== null", "the file in the tree")
        self.browser.click('[id="save-/given.bin"]')
        self.equal(self.browser.downloaded("given.bin"), given, "a file goes up and comes down")

    def images(self):
        """The image comes down as the program leaves it, and boots again."""
        self.browser.click("#save-image")
        got = self.browser.downloaded("xv6.img")
        _, left = self.run(self.link()[1])
        self.equal(got == left, True, "the image comes down")
        (self.folder / "own.img").write_bytes(got)
        self.browser.give_file("#image-input", self.folder / "own.img")
        self.browser.wait("!document.getElementById('first-image').hidden", "the image of one's own")
        self.settle("the image of one's own")
        self.enter("cat a b")
        self.equal(self.screen(), "init: starting sh\n$ cat a b\none\ntwo\n$ ", "it boots again")
        self.browser.click("#first-image")
        self.settle("the first image")

    def links(self, address, screen, width):
        self.start(address, width)
        self.browser.wait(f"document.getElementById('screen').textContent === {json.dumps(screen)}", "the replayed session")
        self.settle("the replayed session")
        self.equal(self.screen(), screen, "a link is replayed")

    def steps(self):
        """By keys alone: pause, type, step, and run."""
        self.browser.press("F8")
        self.browser.wait("document.getElementById('run').textContent === 'Run'", "the pause")
        before = self.browser.js("document.getElementById('status').textContent.match(/[\\d,]+ steps/)[0]")
        self.browser.type("ls\n")
        for _ in range(3):
            self.browser.press("F9")
        self.browser.wait(f"!document.getElementById('status').textContent.includes({json.dumps(before)})", "three steps")
        self.browser.press("F8")
        self.settle("ls")
        console, _ = self.run(self.link()[1])
        self.equal(self.screen(), self.shown(console), "steps by keys")

    def shows(self):
        """^P shows the processes."""
        self.to_terminal()
        before = self.screen()
        self.browser.press("p", control=True)
        self.equal(self.screen(), before + "\n1 sleep 12288\n2 sleep 12288\n", "^P shows the processes")

    def ends(self):
        """A machine stops where process 1 ends."""
        self.browser.click("#boot")
        self.settle("another boot")
        self.browser.type("kill 1\n")
        self.browser.wait("document.getElementById('status').textContent.startsWith('stopped: process 1 has ended')", "the end")
        console, _ = self.run(self.link()[1], "halt 1 InitEnded -1\n")
        self.equal(self.screen(), self.shown(console), "process 1 ends")

    def scripts(self):
        """A script is played."""
        script = "step 1000\ntype ls\nstep 20000\ntick 2\n"
        (self.folder / "played").write_text(script)
        self.browser.give_file("#script-input", self.folder / "played")
        self.browser.wait("document.getElementById('status').textContent.includes('2 ticks, 3 keys')", "the script")
        console, _ = self.run(script)
        self.equal(self.screen(), self.shown(console), "a script is played")
        (self.folder / "short").write_text("step 100\n")
        self.browser.give_file("#script-input", self.folder / "short")
        self.browser.wait("document.getElementById('status').textContent.startsWith('pauses · 100 steps, 0 ticks')", "100 steps")
        self.browser.press("F8")
        self.settle("the rest")

    def portrait(self):
        """The picture of the docs: the shell's two children of `echo hi | cat`, with the bytes in the pipe."""
        self.pipes()
        self.browser.picture(PORTRAIT, small=(1280, 800, 0.6))

    def pause(self):
        self.browser.press("F8")
        self.browser.wait("document.getElementById('run').textContent === 'Run'", "the pause")

    def to_pipe_bytes(self):
        """Goes forward, by calls, until there are bytes in a pipe."""
        for _ in range(60):
            if "of 512 bytes" in self.text("pipes") and "0 of 512 bytes" not in self.text("pipes"):
                return
            self.browser.press("F10")
            self.browser.wait("!document.getElementById('status').textContent.startsWith('goes')", "the next call")
            self.rest(60)
        raise SystemExit(f"no bytes came into a pipe: {self.text('pipes')!r}")

    def pipes(self):
        """`echo hi | cat` is stopped with bytes in the pipe, and the picture says so."""
        self.start(self.address, 1280)
        self.pause()
        self.browser.type("echo hi | cat\n")
        self.look("inside")
        self.to_pipe_bytes()
        shown = self.text("pipes")
        for part in ("Pipe 0", "echo (descriptor 1)", '"hi\\n"', "3 of 512 bytes", "sh (descriptor 3)"):
            if part not in shown:
                raise SystemExit(f"the picture of the pipe has no {part!r}: {shown!r}")
        self.equal("writes pipe 0" in self.text("descriptors"), True, "bytes in a pipe are shown, and who holds its ends")

    def waits(self):
        """What each process waits for and who could end it, how many ticks there were, and which pid comes next."""
        self.start(self.address, 1280)
        self.browser.type("cat | cat\n")
        self.browser.wait("document.getElementById('processes').innerText.includes('in pipe')", "two programs that wait")
        self.rest(300)
        states = self.browser.js("[...document.querySelectorAll('#processes .state')].map((it) => it.innerText)")
        wanted = ["a child to end, 2 (wait)", "a child to end, 3, 4 (wait)", "a line of the console (read)", "bytes in pipe 0, from 3 (read)"]
        self.equal(states, [f"waits for {it}" for it in wanted], "what each process waits for")
        ticks = self.browser.js("document.getElementById('status').textContent.match(/[\\d,]+ ticks?/)[0]")
        self.equal(self.text("coming"), f"{ticks} since the boot; the next fork gives process 5", "the ticks, and the next pid")

    def back_to_key(self):
        self.browser.js("document.querySelector('[data-back=key]').click()")
        self.rest(300)

    def digest(self):
        """A sum of all that is seen of the machine: its files, processes and console."""
        self.look("run")
        self.browser.click("#save-image")
        image = self.browser.downloaded("xv6.img")
        return hashlib.sha256(image).hexdigest(), self.screen(), self.text("processes")

    def travels(self):
        """Back to before a fork and forward again: the same bytes; another time, which is kept."""
        self.start(self.address, 1280)
        self.enter("mkdir d")
        self.pause()
        before = self.digest()
        position = self.browser.js("Number(document.getElementById('position').value)")
        self.back_to_key()
        self.equal(self.screen().endswith("$ mkdir d\n"), True, "back to the last key")
        self.browser.js("document.querySelector('[data-forward=fork]').click()")
        self.said("the next instruction is a fork", "the fork")
        self.browser.press("F7")
        self.rest(200)
        self.browser.click("#to-end")
        self.equal(self.digest(), before, "forward again: the same bytes")
        self.back_to_key()
        self.to_terminal()
        self.browser.type("x\n")
        self.browser.press("F8")
        self.settle("another time")
        self.equal(self.browser.js("document.getElementById('branches-label').hidden"), False, "the time that was left is kept")
        other = self.screen()
        self.browser.js("(() => { const it = document.getElementById('branches'); it.value = it.options[1].value; it.dispatchEvent(new Event('change')); })()")
        self.rest(300)
        self.equal((self.digest(), self.browser.js("Number(document.getElementById('position').value)")), (before, position), "back in the time that was left")
        self.equal(other == self.screen(), False, "the other one was another")

    def breaks(self):
        """A breakpoint at an address."""
        self.start(self.address, 1280)
        self.pause()
        self.look("inside")
        self.browser.js("(() => { const it = document.getElementById('address'); it.value = '0x0'; it.dispatchEvent(new Event('input')); })()")
        self.rest(200)
        self.browser.click("#break")
        self.look("run")
        self.to_terminal()
        self.browser.type("ls\n")
        self.browser.press("F8")
        self.said("a breakpoint, at 0x0", "the breakpoint")
        self.look("inside")
        current = self.browser.js("document.querySelector('#code .current').innerText")
        self.equal(current.startswith("●") and "00000" in current, True, "a breakpoint")
        self.equal("ls" in self.browser.js("document.getElementById('pids').selectedOptions[0].text"), True, "it is ls that is there")

    def crashes(self):
        """A process that crashes is shown in words."""
        self.start(self.address, 1280)
        self.enter("crash")
        self.browser.wait("document.getElementById('fault').textContent !== ''", "the fault")
        self.equal(self.text("fault"), CRASH, "a crash is shown in words")
        self.pause()
        self.back_to_key()
        self.browser.js("document.querySelector('[data-forward=fault]').click()")
        self.said("the next instruction ends its process", "the fault")
        self.look("inside")
        self.equal(self.text("next-fault").endswith(CRASH.split(": ", 1)[1]), True, "and before it comes")

    def races(self):
        """A lost update is found by trying a tick at each position, shown, and shared by a link."""
        self.start(self.address, 1280)
        self.enter("race")
        self.equal(self.screen().endswith("race\n2\n$ "), True, "no update is lost")
        self.back_to_key()
        self.browser.click("#search")
        self.browser.wait("/steps: /.test(document.getElementById('outcomes-said').textContent)", "the search", 120)
        outcomes = self.browser.js("[...document.querySelectorAll('#outcomes pre')].map((it) => it.textContent)")
        self.equal([it for it in outcomes if it.startswith("1\n")] != [], True, f"{len(outcomes)} outcomes: {self.text('outcomes-said')}")
        self.browser.picture(self.pictures / "outcomes.png")
        index = next(at for at, it in enumerate(outcomes) if it.startswith("1\n"))
        self.browser.click(f"#outcome-{index}")
        self.rest(300)
        self.equal(self.screen().endswith("race\n1\n$ "), True, "an update is lost")
        console, _ = self.run(self.link()[1])
        self.equal(self.screen(), self.shown(console), "the program loses it too")
        self.look("inside")
        self.browser.js("document.querySelector('[data-back=tick]').click()")
        self.rest(300)
        self.equal(self.last_call(), 'read(3, "0", 1) = 1', "the first process has read 0")
        first = self.looked_at()
        for wanted in (str(int(first) + 1), first):
            self.browser.js("document.querySelector('[data-forward=switch]').click()")
            self.said("another process runs", "the switch")
            self.rest(300)
            self.equal(self.looked_at(), wanted, f"process {wanted} runs")
        self.browser.picture(self.pictures / "lost.png")
        self.look("run")
        address, _ = self.link()
        self.equal("&at=" in address, True, "the link holds the position")
        screen, position = self.screen(), self.text("position-text")
        self.browser.open(address)
        self.browser.wait(f"document.getElementById('position-text').textContent === {json.dumps(position)}", "the position of the link")
        self.rest(300)
        self.equal(self.screen(), screen, "the link shows the same")

    # ---- programs and exercises

    @property
    def writes(self):
        """Whether the module assembles, so that there is a view in which programs are written."""
        return not self.browser.js("document.getElementById('tab-write').hidden")

    @property
    def views(self):
        return (*VIEWS, "write") if self.writes else VIEWS

    def fill(self, name, text, event="input"):
        """Gives a field a value, as a reader does."""
        self.browser.js(f"(() => {{ const it = document.getElementById({json.dumps(name)}); it.value = {json.dumps(text)}; it.dispatchEvent(new Event({json.dumps(event)})); }})()")

    def check_program(self, said):
        self.browser.click("#check")
        self.said(said, said)

    def exercises(self):
        """A text with a fault is mended, assembled and run, an exercise is solved, and the link to a failed test's machine is replayed."""
        self.start(self.address, 1280)
        if not self.writes:
            return print("  the module doesn't assemble: no exercise is tried")
        self.look("write")
        self.fill("exercises", "hello", "change")
        right, wrong = (HELLO / "right/hello.s").read_text(), (HELLO / "start.s").read_text()
        self.fill("source", wrong.replace("li a7, 16", "li a7, 16, 1"))
        self.equal(self.text("faults").split()[:2], ["line", "5"], "a fault is shown at its line")
        self.check_program("the text has faults")
        self.fill("source", wrong)
        self.equal(self.text("faults"), "", "it is mended")
        self.check_program("not yet right: 0 of 10 points")
        results = self.text("results")
        self.equal("one line: not yet right" in results and "Hint: Count the bytes." in results, True, "what is not yet right is reported")
        self.browser.picture(self.pictures / "exercise.png")
        self.replayed_test()
        self.look("write")
        self.fill("source", right)
        self.check_program("right: 10 of 10 points")
        self.browser.click("#put-and-run")
        self.browser.wait("document.getElementById('screen').textContent.endsWith('$ hello\\nhello, kernel\\n$ ')", "the program's line")
        self.equal("addi a2, a2, 14" in self.text("rows"), True, "the exercise is solved, and the program runs")
        for name in ("words", "copy", "child", "pipe"):
            self.fill("exercises", name, "change")
            self.fill("source", next((COURSE / "first_week" / name / "right").glob("*.s")).read_text())
            points = self.browser.js("document.getElementById('results').textContent")
            self.equal(points, "", f"{name} is not judged yet")
            self.check_program("right: ")
        print("  the other four are solved")

    def replayed_test(self):
        """The machine of a failed test, and the same by its link."""
        self.browser.click("#result-0")
        self.browser.wait("document.getElementById('screen').textContent.includes('$ hello\\n')", "the machine of the failed test")
        self.settle("the machine of the failed test")
        screen, (address, _) = self.screen(), self.link()
        self.equal("&work=" in address, True, "the link holds the program")
        self.start(address, 1280)
        self.browser.wait(f"document.getElementById('screen').textContent === {json.dumps(screen)}", "the link of the failed test")
        self.equal(self.browser.js("document.getElementById('source').value"), (HELLO / "start.s").read_text(), "it is replayed, with its text")

    def puts(self):
        """Before anything is typed a file is put on the image."""
        self.start(self.address, 1280)
        if not self.writes:
            return
        given = bytes(range(256)) * 16
        (self.folder / "before.bin").write_bytes(given)
        self.browser.give_file("#file-input", self.folder / "before.bin")
        self.said("before.bin is on the image", "the file that is put")
        self.settle("the machine with the file")
        self.browser.wait("document.getElementById('save-/before.bin') !== null", "the file in the tree")
        self.browser.click('[id="save-/before.bin"]')
        self.equal(self.browser.downloaded("before.bin"), given, "4 kB are on the disk before the first key")

    def lines_by_steps(self):
        """A breakpoint at a line of an own text, and the next line."""
        self.start(self.address, 1280)
        if not self.writes:
            return
        self.look("write")
        self.fill("exercises", "", "change")
        self.browser.click("#row-0")
        self.browser.click("#put-and-run")
        current = "document.querySelector('#gutter .current')?.textContent"
        for _ in range(8):
            self.browser.wait("document.getElementById('run').textContent === 'Run'", "the breakpoint")
            self.rest(300)
            if self.browser.js(current):
                break
            self.browser.press("F8")
            self.rest(100)
        first = self.browser.js(current)
        self.browser.click("#next-line")
        self.rest(300)
        self.equal((first, self.browser.js(current)), ("2", "3"), "a breakpoint at a line, and the next line")
        self.look("inside")
        self.fill("address", "text")
        self.rest(200)
        self.equal(self.text("walk").startswith("0x38 = "), True, "the address of a label")

    def failed_test(self):
        """The page of a failed test of course/grade.py opens without a net, and shows the console's failing line."""
        folder, pages = self.folder / "ada", self.folder / "pages"
        folder.mkdir()
        (self.folder / "hello.s").write_text((HELLO / "right/hello.s").read_text().replace("hello, kernel", "hello, colonel").replace("14", "15"))
        subprocess.run([self.program, "asm", self.folder / "hello.s", folder / "hello"], check=True)
        words = [sys.executable, COURSE / "grade.py", "--quiet", "--status", "graded", "--html", pages, "--page", self.page, HELLO / "rubric.toml", folder]
        subprocess.run(words, check=True, env={**os.environ, "XV6": self.program})
        self.browser.open((pages / "1.html").as_uri())
        self.browser.wait("document.getElementById('screen').textContent.includes('hello, colonel')", "the failing line")
        self.settle("the failed test")
        self.equal(self.screen().endswith("$ hello\nhello, colonel\n$ "), True, "a failed test's page shows the console's failing line")
        self.pause()
        self.back_to_key()
        self.equal(self.screen().endswith("$ hello\n"), True, "and one steps back from there")

    def last_call(self):
        return self.browser.js("document.querySelector('#calls li').textContent")

    def looked_at(self):
        """The pid of the process that is looked at."""
        return self.browser.js("document.getElementById('pids').value")

    def first_prompt(self):
        """The milliseconds from the begin of a load to the first prompt."""
        self.start(self.address, 1280)
        return self.browser.js("performance.getEntriesByName('prompt')[0].startTime")

    # ---- what holds of each view

    def above_the_fold(self):
        for view in self.views:
            self.look(view)
            tall, wide = self.browser.js("[document.documentElement.scrollHeight, document.documentElement.scrollWidth]")
            self.equal(tall <= 800 and wide <= 1280, True, f"{view}: above the fold")

    def accesses(self):
        """The rules of access.js hold."""
        for view in self.views:
            self.look(view)
            self.equal(self.browser.js(ACCESS), [], f"{view}: the rules of access")

    def contrasts(self):
        """Each text has a contrast of 7 at least to its ground."""
        for view in self.views:
            self.look(view)
            self.equal(self.browser.js(CONTRAST), [], f"{view}: contrast")

    def stops(self):
        """Any control is at most 12 stops of Tab away."""
        for view in self.views:
            self.look(view)
            self.browser.js("document.activeElement.blur(), document.getSelection().removeAllRanges()")
            self.browser.js("document.getElementById('run').focus()")
            seen = []
            for _ in range(40):
                self.browser.press("Tab")
                name = self.browser.js("document.activeElement.id || document.activeElement.textContent.slice(0, 20)")
                if name == "run" or name in seen or self.browser.js("document.activeElement === document.body"):
                    break
                seen.append(name)
            self.equal(len(seen) + 1 <= 12, True, f"{view}: {len(seen) + 1} stops of Tab: {' '.join(seen)}")

    def speaks(self):
        """The tree of a screen reader has the console's new lines."""
        self.start(self.address, 1280)
        self.enter("echo spoken words")
        nodes = self.browser.call("Accessibility.getFullAXTree")["nodes"]
        logs = [it for it in nodes if it.get("role", {}).get("value") == "log"]
        self.equal(len(logs), 1, "one live region for the console")
        names = [it.get("name", {}).get("value", "") for it in nodes if it.get("role", {}).get("value") == "StaticText"]
        self.equal("spoken words" in names, True, "a screen reader finds the console's new lines")
        unnamed = [it["role"]["value"] for it in nodes if it.get("role", {}).get("value") in ("button", "textbox", "combobox", "slider", "checkbox", "spinbutton", "tab") and not it.get("ignored") and not it.get("name", {}).get("value")]
        self.equal(unnamed, [], "each control has a name")

    def helps(self):
        """`?` lists the keys; large type; colours."""
        self.browser.js("document.getElementById('run').focus()")
        self.browser.press("?")
        self.equal(self.browser.js("document.getElementById('keys-help').open"), True, "? lists the keys")
        self.browser.picture(self.pictures / "keys.png")
        self.browser.click("#close-help")
        self.browser.click("#lecture")
        self.equal(self.browser.js("getComputedStyle(document.documentElement).fontSize"), "21px", "large type")
        self.rest(200)
        self.browser.picture(self.pictures / "lecture.png")
        self.browser.click("#lecture")

    def framed(self):
        """In a frame of 700 by 500 a link shows its view alone."""
        for view in self.views:
            self.browser.size(700, 500)
            self.browser.open(f"{self.address}#view={view}&only")
            self.browser.wait(f"!document.getElementById('view-{view}').hidden && {PROMPT}", "the view")
            self.rest(500)
            tall, wide = self.browser.js("[document.documentElement.scrollHeight, document.documentElement.scrollWidth]")
            self.browser.picture(self.pictures / f"frame-{view}.png")
            self.equal((tall <= 500, wide <= 700), (True, True), f"{view} fits a frame of 700 by 500")

    def times(self):
        """How long the first prompt, a link of many steps, and the way back take."""
        shown = min(self.first_prompt() for _ in range(3))
        script = f"step 5000\ntype spin\nstep {MANY}\n"
        (self.folder / "many").write_text(script)
        self.browser.js("(() => { const it = document.getElementById('watch'); if (it.checked) it.click(); })()")
        begin = self.browser.js("performance.now()")
        self.browser.give_file("#script-input", self.folder / "many")
        self.browser.wait(f"document.getElementById('position').max > {MANY} && document.getElementById('status').textContent.match(/^(runs|pauses)/)", "the replay", 60)
        replayed = self.browser.js("performance.now()") - begin
        backs = self.browser.js(BACKS)
        print(f"  first prompt {shown:.0f} ms after the load begins, {MANY} steps replayed in {replayed:.0f} ms, back in {max(backs):.1f} ms at most")
        self.equal((shown < 500 * SLOW, replayed < 2000 * SLOW, max(backs) < 100 * SLOW), (True, True, True), "times")

    def still(self):
        """The link to a paused machine."""
        self.start(self.address, 1280)
        (self.folder / "still").write_text(STILL)
        self.browser.give_file("#script-input", self.folder / "still")
        self.browser.wait("document.getElementById('status').textContent.startsWith('pauses')", "the paused machine")
        self.rest(300)
        end = self.browser.js("document.getElementById('position').max")
        return f"{self.link()[0]}&at={end}"

    def stand(self, address, width, dark):
        """Opens the link to the paused machine."""
        self.browser.size(width, WIDTHS[width], dark)
        self.browser.open(address)
        self.browser.wait("document.getElementById('status').textContent.startsWith('pauses')", "the paused machine", 60)
        if dark and self.name:
            self.browser.click("#theme")
        self.rest(500)

    @staticmethod
    def as_text(path):
        return json.dumps(base64.b64encode(path.read_bytes()).decode())

    def keep(self, got, kept):
        """Keeps a picture, small."""
        kept.write_bytes(base64.b64decode(self.browser.js(SMALL.replace("PICTURE", self.as_text(got)))))

    def compare(self, got, kept):
        """Compares a picture with the kept one: it has its shape and, nearly everywhere, its colours."""
        text = COMPARE.replace("KEPT", self.as_text(kept)).replace("PICTURE", self.as_text(got))
        other, one, two = self.browser.js(text)
        most = MOST_OTHER["firefox-" if got.name.startswith("firefox-") else ""]
        said = f"{got.name}: {100 * other:.1f} % of it differ from the kept picture"
        self.equal((other <= most, abs(one - two) <= 0.06 * one), (True, True), said)

    def fits(self, width):
        wide = self.browser.js("document.documentElement.scrollWidth")
        self.equal(wide <= width, True, f"nothing is wider than {width} pixels")

    def seeds(self):
        """Random events give the program's console."""
        chance = random.Random(7)
        scripts = ["".join(self.event(chance) for _ in range(chance.randrange(3, 25))) for _ in range(SEEDS)]
        wanted = [list(self.run(script, None)[0]) for script in scripts]
        got = self.browser.js(PLAY.replace("SCRIPTS", json.dumps(scripts)))
        self.equal(got, wanted, f"{SEEDS} random scripts, {sum(map(len, wanted))} bytes")

    def journeys(self):
        """Wherever one goes in time, all is as in a machine that was only given the events."""
        self.browser.js(TRAVEL)
        print(f"  {JOURNEYS} journeys of {MOVES} moves each")

    @staticmethod
    def event(chance):
        """A line of a script."""
        kind = chance.randrange(3)
        if kind == 0:
            return f"step {chance.choice([1, 17, 500, 5000, 40000])}\n"
        if kind == 1:
            return f"tick {chance.choice([1, 1, 2])}\n"
        return f"keys {(chance.choice(TYPED) + chr(10)).encode().hex()}\n"

    def words(self):
        """Instructions have the texts that the program gives them."""
        chance = random.Random(6)
        words = [chance.getrandbits(32) & ~0x7F | chance.choice((0x37, 0x17, 0x6F, 0x67, 0x63, 0x03, 0x23, 0x13, 0x33, 0x1B, 0x3B, 0x0F, 0x73)) for _ in range(WORDS)]
        words += [word & 0x01FFFFFF | top << 25 for word in words for top in (0, 1, 0x20)] + [0x73, 0x100073, 0x0FF0000F]
        text = "".join(f".word 0x{word:08x}\n" for word in words)
        (self.folder / "words.s").write_text(text)
        subprocess.run([self.program, "asm", "words.s", "words"], cwd=self.folder, check=True)
        dump = subprocess.run([self.program, "dump", "words"], cwd=self.folder, check=True, capture_output=True, text=True).stdout
        wanted = [line.split(" ", 2)[2] for line in dump.splitlines()]
        code = (HERE / "disassembly.js").read_text().replace("export ", "")
        got = self.browser.js(f"(() => {{ {code}\nreturn {json.dumps(words)}.map((word) => disassemble(word | 0)); }})()")
        self.equal(got, wanted, f"the texts of {len(words)} words")


def looks(check, address):
    """Pictures of each view of the paused machine, at both widths, light and dark: nothing is too wide, and each text has contrast. Returns
    their names."""
    names = []
    for width in WIDTHS:
        for dark in (False, True):
            check.stand(address, width, dark)
            for view in check.views:
                check.look(view)
                check.fits(width)
                names.append(f"{view}-{width}{'-dark' if dark else ''}.png")
                check.browser.picture(check.pictures / f"{check.name}{names[-1]}", whole=width < 1000)
            check.contrasts()
    return names


def compare(check, names):
    """Compares the pictures of both browsers with those that are kept, or keeps those of Chromium."""
    check.browser.open("about:blank")
    for kept in (KEPT / name for name in names):
        if KEEP:
            check.keep(check.pictures / kept.name, kept)
        for got in (check.pictures / kept.name, check.pictures / f"firefox-{kept.name}"):
            if got.exists():
                check.compare(got, kept)


def use(check, width):
    print(f"{width} pixels:")
    check.start(check.address, width)
    check.lines()
    check.edits()
    check.pastes()
    check.files()
    check.images()
    check.steps()
    check.shows()
    check.ends()
    check.scripts()
    check.lines()
    address, _ = check.link()
    check.links(address, check.screen(), width)


def wide(check):
    """What is looked at in a wide window alone."""
    print("views and time:")
    for part in (check.portrait, check.waits, check.travels, check.breaks, check.crashes, check.races, check.exercises, check.puts):
        part()
    for part in (check.lines_by_steps, check.failed_test, check.speaks, check.accesses, check.above_the_fold, check.stops, check.helps, check.framed):
        part()
    check.times()


def firefox(page, program, image, folder, address):
    """The same in Firefox, where it is there: what is done at the console, in time and in exercises, and pictures of each view."""
    if not Firefox.program():
        print("no firefox: not tried (apt install firefox-esr)")
        return
    print("firefox:")
    with Firefox() as browser:
        check = Check(browser, page, program, image, folder, "firefox-")
        check.start(check.address, 1280)
        check.to_terminal()
        for part in (check.lines, check.above_the_fold, check.pipes, check.waits, check.travels, check.breaks, check.crashes, check.exercises):
            part()
        check.start(check.address, 1280)
        check.accesses()
        looks(check, address)


def main():
    page, program, image, folder = sys.argv[1:]
    for one in (pathlib.Path(folder), KEPT):
        one.mkdir(parents=True, exist_ok=True)
    with Browser() as browser:
        check = Check(browser, page, program, image, folder)
        try:
            check.start(check.address, 1280)
            check.words()
            check.seeds()
            check.journeys()
            wide(check)
            for width in WIDTHS:
                use(check, width)
            address = check.still()
            names = looks(check, address)
            firefox(page, program, image, folder, address)
            compare(check, names)
        except (TimeoutError, SystemExit):
            browser.picture(check.pictures / "failed.png")
            print(f"see {check.pictures / 'failed.png'}; the page complains: {browser.faults}", file=sys.stderr)
            raise
        if browser.faults:
            raise SystemExit(f"the page complains: {browser.faults}")
    print(f"the page does as the program; look at the pictures in {folder}, and at {PORTRAIT}")


if __name__ == "__main__":
    main()
