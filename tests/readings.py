#!/usr/bin/env python3
"""Doubles as whole units, by the words of document 02, wish 5, with exact fractions.

tests/vectors.py puts 1,503 of them into the input and the expected output of the program `rule_vectors`.

    tools/build rule_vectors && python3 tests/readings.py [DOUBLES] [SEED]     compares the program with it on others
"""

import math
import random
import struct
import subprocess
import sys
from fractions import Fraction
from pathlib import Path

PROGRAM = Path(__file__).resolve().parent.parent / "target/bin/rule_vectors"
AT_ONCE = 2048  # doubles for one run of the program

SCALES = (10**6, 15 * 10**6, 10**8)  # of degrees, of hours, of lengths and tangents

# the ends of the ranges of document 01, and what else is a border: in units
LENGTHS = [2 * 10**8, 10**8, 10**5, 10**4, 5 * 10**7, 6 * 10**7, 5 * 10**6, 400_000, 500_000]
ANGLES = [25_000_000, 20_000, 100, 359_999_999, 14_900_000, 15_100_000, 180_000_000]
BORDERS = [0, 1, 2, 2**31, 2**53, 2**62, 2**63, 2**64]

NOT_FINITE = [0x7FF0000000000000, 0xFFF0000000000000, 0x7FF8000000000000, 0xFFF8000000000000, 0x7FF0000000000001]
NOT_FINITE += [0xFFF0000000000001, 0x7FFFFFFFFFFFFFFF, 0xFFFFFFFFFFFFFFFF, 0x7FF4000000000000]


def units(x, scale):
    """The nearest whole unit to the binary fraction that x exactly is, halves away from zero."""
    size = math.floor(abs(Fraction(x)) * scale + Fraction(1, 2))
    return size if x > 0 else -size


def reading(x, scale):
    if not math.isfinite(x):
        return "none"
    unit = units(x, scale)
    return str(unit) if -(2**63) <= unit < 2**63 else "large"


def line(x):
    return " ".join(reading(x, scale) for scale in SCALES) + "\n"


def bits(x):
    return struct.unpack(">Q", struct.pack(">d", x))[0]


def double(pattern):
    return struct.unpack(">d", struct.pack(">Q", pattern))[0]


def beside(fraction):
    """The double nearest to a fraction, and those on both sides of it."""
    x = float(fraction)
    return [math.nextafter(x, -math.inf), x, math.nextafter(x, math.inf)]


def about(unit, scale):
    """Doubles about a unit and the halves on both sides of it, of either sign."""
    near = [x for half in (-1, 0, 1) for x in beside(Fraction(2 * unit + half, 2 * scale))]
    return near + [-x for x in near]


def cases():
    """Bit patterns: borders, halves, exact halves, the smallest and the largest, what is not finite, some anywhere."""
    xs = [x for unit in ANGLES + BORDERS for scale in SCALES[:2] for x in about(unit, scale)]
    xs += [x for unit in LENGTHS + BORDERS for x in about(unit, SCALES[2])]
    # k/128 degree and k/512 radii have a half of a unit where k is odd; so have k/128 hours
    xs += [sign * k / n for k in (1, 3, 127, 12_345) for n in (64, 128, 256, 512, 1024) for sign in (1, -1)]
    xs += [
        0.0, -0.0, 5e-324, -5e-324, 2.2250738585072014e-308, 2.225073858507201e-308, sys.float_info.max,
        -sys.float_info.max
    ]
    draw = random.Random(1954)
    xs += [draw.choice((1, -1)) * draw.randrange(2**53) * 2.0 ** draw.randrange(-120, 20) for _ in range(400)]
    return [bits(x) for x in xs] + NOT_FINITE + [draw.randrange(2**64) for _ in range(200)]


def vectors():
    for pattern in cases():
        yield struct.pack(">Q", pattern), line(double(pattern))


def records(patterns):
    """The doubles as the program reads them: the letter, eight bytes."""
    return b"".join(struct.pack(">cHQ", b"d", 8, pattern) for pattern in patterns)


def check(count, seed):
    draw = random.Random(seed)

    def drawn():
        kind = draw.randrange(4)
        if kind == 0:
            return draw.randrange(2**64)
        if kind == 1:
            return bits(draw.choice(about(draw.randrange(2 ** draw.randrange(1, 65)), draw.choice(SCALES))))
        if kind == 2:
            return bits(draw.choice((1, -1)) * draw.randrange(2**53) * 2.0 ** draw.randrange(-110, 20))
        return draw.choice(NOT_FINITE + [draw.randrange(2**52), 2**63 + draw.randrange(2**52)])

    tried = 0
    while tried < count:
        patterns = [drawn() for _ in range(AT_ONCE)]
        told = "".join(line(double(pattern)) for pattern in patterns)
        got = subprocess.run([PROGRAM], input=records(patterns), capture_output=True)
        assert got.stdout.decode() == told, [
            (hex(p), a, b) for p, a,
            b in zip(patterns, got.stdout.decode().split("\n"), told.split("\n")) if a != b
        ][:3]
        tried += AT_ONCE
    print(f"tests/readings.py: the program and the fractions agree on {tried} doubles")


if __name__ == "__main__":
    count, seed = (list(map(int, sys.argv[1:3])) + [100_000, 1][len(sys.argv) - 1 :])[:2]
    check(count, seed)
