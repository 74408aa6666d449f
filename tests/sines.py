#!/usr/bin/env python3
"""Test vectors of sine and cosine for the program `rule_vectors`, from document 01's words alone, with exact fractions.

tests/vectors.py puts them into the program's input and expected output.
"""
import struct
from fractions import Fraction
from math import ceil, factorial, floor

PI = Fraction("3.14159265358979323846")


def near(x):
    """The nearer of the two whole numbers around x; where both are equally near, the larger in size."""
    return min(floor(x), ceil(x), key=lambda q: (abs(q - x), -abs(q)))


def series(x):
    """The sine series, summed to the 21st power."""
    return sum((-1) ** (n // 2) * x**n / factorial(n) for n in range(1, 22, 2))


S = [near(10**8 * series(k * PI / 1800)) for k in range(901)]
for k, entry in enumerate(S):
    assert abs(entry - 10**8 * series(k * PI / 1800)) <= Fraction(1, 2)
assert (S[0], S[300], S[900]) == (0, 50_000_000, 10**8)


def first_quadrant(a):
    k, b = divmod(a, 100_000)
    r = near(Fraction(b * 17_453_293, 10**7))
    w = near(Fraction(r * r, 2 * 10**8))
    return min(S[k] + near(Fraction(S[900 - k] * r - S[k] * w, 10**8)), 10**8)


def sine(a):
    return first_quadrant(a) if a <= 90_000_000 else cosine(a - 90_000_000)


def cosine(a):
    return first_quadrant(90_000_000 - a) if a <= 90_000_000 else -sine(a - 90_000_000)


def angle(i):
    """Borders of quadrants and octants, tenths of a degree, each with the angles beside it, and angles anywhere."""
    if i < 51:
        return i // 3 * 45_000_000 + i % 3 - 360_000_001
    if i < 351:
        return i * 607 % 1801 * 100_000 + i % 3 - 90_000_001
    return i * 12_345_678_901 % 20_000_000_001 - 10_000_000_000


def by_quadrants(a):
    """Sine and cosine by document 02's four quadrants: s, c, -s, -c and c, -s, -c, s."""
    quadrant, less = divmod(a, 90_000_000)
    s, c = first_quadrant(less), first_quadrant(90_000_000 - less)
    return [(s, c), (c, -s), (-s, -c), (-c, s)][quadrant]


def by_turns(a):
    """Sine and cosine by document 01, a quarter turn down."""
    return sine(a), cosine(a)


def vectors():
    """A thousand angles, each with its sine and cosine both ways, which are the same."""
    for i in range(1000):
        a = angle(i) % 360_000_000
        assert by_quadrants(a) == by_turns(a)
        yield struct.pack(">q", angle(i)), " ".join(map(str, (angle(i), *by_quadrants(a), *by_turns(a)))) + "\n"
