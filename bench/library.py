#!/usr/bin/env python3
"""library.py FOLDER PROGRAM: the library of FOLDER beside the built program: sizes, a boot of an image of 2 MB, and a step of a loop with a
load and a store, from C, from Python, and by `xv6 run --tlb`; a step of Python's `run_until` to a text that is printed after as many;
and a copy of machines of several sizes beside the host's memcpy of as many bytes. Processor times, the least of five or more."""
import os
import resource
import subprocess
import sys
import tempfile
import time

if len(sys.argv) != 3 or "--help" in sys.argv:
    sys.exit(__doc__)
FOLDER, PROGRAM = (os.path.abspath(path) for path in sys.argv[1:3])
HERE = os.path.dirname(os.path.abspath(__file__))
STEPS = 20_000_000
SPIN = "        la t0, place\nagain:  ld t1, 0(t0)\n        addi t1, t1, 1\n        sd t1, 0(t0)\n        j again\n        .pad 8\nplace:  .zero 8\n"

# It prints a letter after ROUNDS rounds of the same loop.
PRINTS = """        la a0, name
        li a1, 1
        li a2, 0
        li a7, 17               # mknod: the device 1, 0 is the console
        ecall
        la a0, name
        li a1, 2
        li a7, 15               # open
        ecall
        la t0, place
        li t2, ROUNDS
again:  ld t1, 0(t0)
        addi t1, t1, 1
        sd t1, 0(t0)
        bne t1, t2, again
        li a0, 0
        la a1, name
        li a2, 1
        li a7, 16               # write
        ecall
stop:   j stop
name:   .ascii "c\\0"
        .pad 8
place:  .zero 8
"""

# How many frames and blocks the machines have that are copied.
SIZES = [(64, 100), (256, 2000), (4096, 2000)]


def spent_by_children(words):
    """The processor time of a program, in seconds."""
    before = resource.getrusage(resource.RUSAGE_CHILDREN)
    subprocess.run(words, check=True, capture_output=True)
    after = resource.getrusage(resource.RUSAGE_CHILDREN)
    return after.ru_utime + after.ru_stime - before.ru_utime - before.ru_stime


def make_image(folder, text=SPIN, blocks=2048):
    """An image of n blocks whose first program is this text."""
    for name, content in (("spin.s", text), ("manifest", "file /init spin\n"), ("none", "step 0\n"), ("many", f"step {STEPS}\n")):
        with open(os.path.join(folder, name), "w") as file:
            file.write(content)
    subprocess.run([PROGRAM, "asm", "spin.s", "spin"], cwd=folder, check=True)
    image = os.path.join(folder, f"{blocks}.img")
    subprocess.run([PROGRAM, "mkfs", "--size", str(blocks), "--inodes", "200", "manifest", image], cwd=folder, check=True)
    return image


def by_c(folder, name, *words):
    """The numbers that a C program of this folder prints."""
    subprocess.run(["cc", "-O2", f"-I{FOLDER}", f"{HERE}/{name}.c", f"{FOLDER}/libxv6.a", "-o", f"{folder}/{name}"], check=True)
    said = subprocess.run([f"{folder}/{name}", *map(str, words)], check=True, capture_output=True, text=True)
    return [float(number) for number in said.stdout.split()]


def in_python(image):
    sys.path.insert(0, FOLDER)
    from cathompi import Machine

    with open(image, "rb") as file:
        data = file.read()
    boots, steps = [], []
    for _turn in range(5):
        started = time.process_time()
        with Machine(data) as machine:
            boots.append(time.process_time() - started)
            started = time.process_time()
            machine.steps(STEPS)
            steps.append((time.process_time() - started) / STEPS)
    return min(boots) * 1e3, min(steps) * 1e9


def until_printed(folder):
    """Nanoseconds a step of `run_until`."""
    from cathompi import Machine

    rounds = STEPS // 4
    with open(make_image(folder, PRINTS.replace("ROUNDS", str(rounds)), 256), "rb") as file:
        data = file.read()
    steps = []
    for _turn in range(5):
        with Machine(data) as machine:
            started = time.process_time()
            if machine.run_until("c", most=2 * STEPS) != b"c":
                sys.exit("library.py: run_until gave another text")
            steps.append((time.process_time() - started) / (4 * rounds))
    return min(steps) * 1e9


def by_program(folder, image):
    words = [PROGRAM, "run", "--tlb", "--frames", "256", image]
    boot = min(spent_by_children([*words, f"{folder}/none"]) for _turn in range(5))
    run = min(spent_by_children([*words, f"{folder}/many"]) for _turn in range(5))
    return boot * 1e3, (run - boot) / STEPS * 1e9


def main():
    for path in (f"{FOLDER}/libxv6.a", f"{FOLDER}/libxv6.so", PROGRAM):
        print(f"{os.path.basename(path)}: {os.path.getsize(path) // 1000} kB")
    with tempfile.TemporaryDirectory() as folder:
        image = make_image(folder)
        for name, (boot, step) in (("C", by_c(folder, "speed", image, STEPS)), ("Python", in_python(image)), ("xv6 run --tlb", by_program(folder, image))):
            print(f"{name}: boot {boot:.1f} ms, {step:.2f} ns a step, {1000 / step:.0f} million steps a second")
        step = until_printed(folder)
        print(f"run_until: {step:.2f} ns a step, {1000 / step:.0f} million steps a second")
        for frames, blocks in SIZES:
            size, copy, anew, there = by_c(folder, "copies", make_image(folder, SPIN, blocks), frames)
            what = f"copy of {frames} frames and {blocks} blocks, {size / 1e6:.1f} MB"
            print(f"{what}: {copy:.0f} us; memcpy {anew:.0f} us into new memory, {there:.0f} us into memory that is there")


main()
