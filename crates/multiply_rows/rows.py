#!/usr/bin/env python3
"""Writes the table of multiplications and divisions that this crate's program reads, on standard output.

    crates/multiply_rows/rows.py > crates/multiply_rows/stdin

A row is an instruction's name, its word (rd is 5, rs1 is 6, rs2 is 7), what the registers 6 and 7 hold, and what register 5
holds after it: numbers in hexadecimal digits. What they hold after it is worked out by Python's whole numbers. Each
instruction has all pairs of the edges of 32 and 64 bits, and random ones, which are the same in each run.
"""

import random

EDGES = [0, 1, -1, 7, 2**31 - 1, 2**31, 2**32 - 1, 2**32, -(2**31), 2**63 - 1, -(2**63), -(2**63) + 1]
RANDOM_PAIRS = 76

# The numbers funct3 of the opcodes 0110011 and 0111011.
DOUBLE_WORDS = {"mul": 0, "mulh": 1, "mulhsu": 2, "mulhu": 3, "div": 4, "divu": 5, "rem": 6, "remu": 7}
WORDS = {"mulw": 0, "divw": 4, "divuw": 5, "remw": 6, "remuw": 7}


def unsigned(bits, number):
    return number % 2**bits


def signed(bits, number):
    return (number + 2 ** (bits - 1)) % 2**bits - 2 ** (bits - 1)


def quotient(a, b):
    """Rounded toward zero; by zero -1, whose bits are all 1."""
    if b == 0:
        return -1
    size = abs(a) // abs(b)
    return size if (a < 0) == (b < 0) else -size


def remainder(a, b):
    """It has the dividend's sign, which by zero it is."""
    return a if b == 0 else a - b * quotient(a, b)


MEANING = {
    "mul": lambda a, b: a * b,
    "mulh": lambda a, b: signed(64, a) * signed(64, b) >> 64,
    "mulhsu": lambda a, b: signed(64, a) * b >> 64,
    "mulhu": lambda a, b: a * b >> 64,
    "div": lambda a, b: quotient(signed(64, a), signed(64, b)),
    "divu": quotient,
    "rem": lambda a, b: remainder(signed(64, a), signed(64, b)),
    "remu": remainder,
    "mulw": lambda a, b: signed(32, a * b),
    "divw": lambda a, b: signed(32, quotient(signed(32, a), signed(32, b))),
    "divuw": lambda a, b: signed(32, quotient(unsigned(32, a), unsigned(32, b))),
    "remw": lambda a, b: signed(32, remainder(signed(32, a), signed(32, b))),
    "remuw": lambda a, b: signed(32, remainder(unsigned(32, a), unsigned(32, b))),
}


def word(name):
    funct3, opcode = (DOUBLE_WORDS[name], 0b0110011) if name in DOUBLE_WORDS else (WORDS[name], 0b0111011)
    return 1 << 25 | 7 << 20 | 6 << 15 | funct3 << 12 | 5 << 7 | opcode


def some_number(source):
    """A number of up to 64 bits, of either sign: short ones as often as long ones."""
    number = source.getrandbits(source.randint(1, 64))
    return unsigned(64, source.choice([number, -number]))


def pairs():
    source = random.Random(64)
    edges = [unsigned(64, edge) for edge in EDGES]
    yield from ((a, b) for a in edges for b in edges)
    for _ in range(RANDOM_PAIRS):
        yield some_number(source), some_number(source)


def main():
    for name, meaning in MEANING.items():
        for a, b in pairs():
            print(f"{name} {word(name):08x} {a:x} {b:x} {unsigned(64, meaning(a, b)):x}")


if __name__ == "__main__":
    main()
