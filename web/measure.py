#!/usr/bin/env python3
"""measure.py PAGE PROGRAM IMAGE: how large the page and its module are, how long the first prompt, a boot and the way back take there, and how
many steps a second a loop with a load and a store makes: in the browser, and by PROGRAM, the built xv6, beside it. Rates are medians of long
runs."""
import json
import pathlib
import re
import resource
import statistics
import subprocess
import sys
import tempfile

from browser import Browser
from make_page import UNPACK, joined

LOOP = """start: addi sp, sp, -16
loop: ld t0, 0(sp)
      addi t0, t0, 1
      sd t0, 0(sp)
      j loop
"""
STEPS = 200_000_000
# The program's runs: of a boot and these steps one takes seconds, so that a boot is a hundredth of it.
LONG = 1_000_000_000
FEW = 1_000_000
MANY = 10_000_000
PART = 100_000
TIMES = 5
BOOT_TIMES = 100
LOADS = 5

MEASURE = """(async () => {
UNPACK
const [code, image] = await Promise.all(["packed-module", "packed-image"].map(unpack));
MODULES
const begin = performance.now();
const module = await machine.loadModule(code);
const compiled = performance.now() - begin;
const times = (count, act) => Array.from({ length: count }, () => { const from = performance.now(); act(); return performance.now() - from; });
const boots = times(BOOT_TIMES, () => machine.Machine.boot(module, image, 256).close());
globalThis.spin = machine.Machine.boot(module, Uint8Array.from(LOOP_IMAGE), 64);
globalThis.noted = new calls.Calls();
const travelled = new driver.Driver(module, Uint8Array.from(LOOP_IMAGE), 256, [{ kind: "step", times: ALL_EVENTS }]);
travelled.goal = null;
const whole = times(1, () => { while (travelled.position < ALL_EVENTS) travelled.go(Math.min(travelled.position + SOME_EVENTS, ALL_EVENTS), Infinity); })[0];
const backs = Array.from({ length: 20 }, (_, index) => {
  travelled.seek(Math.floor((ALL_EVENTS * (index + 1)) / 20));
  return times(1, () => travelled.back("step"))[0];
});
return { module: code.length, compiled, first: boots[0], boot: Math.min(...boots), whole, back: Math.max(...backs), copies: travelled.snapshots.all.length };
})()"""


def image_of_loop(program, folder):
    """The bytes of an image with the loop as its first program."""
    (folder / "loop.s").write_text(LOOP)
    (folder / "manifest").write_text("file /init loop\n")
    subprocess.run([program, "asm", "loop.s", "loop"], cwd=folder, check=True)
    subprocess.run([program, "mkfs", "--size", "64", "--inodes", "16", "manifest", "loop.img"], cwd=folder, check=True)
    return (folder / "loop.img").read_bytes()


def seconds(program, folder, steps):
    """The seconds of a processor that the program's run of n steps takes."""
    (folder / "script").write_text(f"step {steps}\n")
    before = resource.getrusage(resource.RUSAGE_CHILDREN).ru_utime
    subprocess.run([program, "run", "--tlb", "loop.img", "script"], cwd=folder, check=True, stderr=subprocess.DEVNULL)
    return resource.getrusage(resource.RUSAGE_CHILDREN).ru_utime - before


def script_time(browser):
    """The seconds of a processor that the page's code has taken."""
    metrics = browser.call("Performance.getMetrics")["metrics"]
    return next(it["value"] for it in metrics if it["name"] == "ThreadTime")


def rate(browser, text, steps):
    """Steps a second of a processor, the median of several runs."""
    rates = []
    for _ in range(TIMES):
        before = script_time(browser)
        browser.js(text)
        rates.append(steps / (script_time(browser) - before))
    return statistics.median(rates)


def native_rate(program, folder):
    """The same of the program, less what a run without steps takes: medians of long runs, so that no difference of two noisy times is taken."""
    idle = statistics.median(seconds(program, folder, 0) for _ in range(TIMES))
    busy = statistics.median(seconds(program, folder, LONG) for _ in range(TIMES))
    return LONG / (busy - idle)


def in_browser(page, loop):
    text = MEASURE.replace("UNPACK", UNPACK).replace("MODULES", joined("driver", set()))
    for name, value in {"LOOP_IMAGE": json.dumps(list(loop)), "BOOT_TIMES": BOOT_TIMES, "ALL_EVENTS": MANY, "SOME_EVENTS": PART}.items():
        text = re.sub(rf"\b{name}\b", str(value), text)
    with Browser() as browser:
        prompts = []
        for _ in range(LOADS):
            browser.open(pathlib.Path(page).resolve().as_uri())
            browser.wait("performance.getEntriesByName('prompt').length === 1", "the first prompt")
            prompts.append(browser.js("performance.getEntriesByName('prompt')[0].startTime"))
        browser.click("#run")
        browser.call("Performance.enable", timeDomain="threadTicks")
        got = {**browser.js(text), "prompt": min(prompts)}
        got["plain"] = rate(browser, f"spin.steps({STEPS})", STEPS)
        got["noted"] = rate(browser, f"noted.run(spin, noted.to, {FEW}, () => {{}})", FEW)
        return got


def main():
    page, program, image = sys.argv[1:]
    program = str(pathlib.Path(program).resolve())
    with tempfile.TemporaryDirectory() as name:
        folder = pathlib.Path(name)
        got = in_browser(page, image_of_loop(program, folder))
        native = native_rate(program, folder)
    print(f"page {pathlib.Path(page).stat().st_size} bytes, module {got['module']}, image {pathlib.Path(image).stat().st_size}")
    print(f"first prompt {got['prompt']:.0f} ms after the load begins, the best of {LOADS}")
    print(f"module compiled in {got['compiled']:.1f} ms; first boot in {got['first']:.1f} ms, best of {BOOT_TIMES} {got['boot']:.1f}")
    print(f"{MANY} steps replayed in {got['whole']:.0f} ms with {got['copies']} copies kept; back by one in {got['back']:.1f} ms at most")
    rates = [got["plain"], got["noted"], native]
    print("million steps a second of a processor: {:.1f}; with calls noted {:.2f}; the program {:.1f}".format(*(it / 1e6 for it in rates)))


if __name__ == "__main__":
    main()
