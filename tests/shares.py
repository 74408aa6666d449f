#!/usr/bin/env python3
"""Test vectors of the covered share for the program `rule_vectors`, from the words of document 02, wish 4.

tests/vectors.py puts them into the program's input and expected output.

    python3 tests/shares.py        the rows, L1 L2 M share
    python3 tests/shares.py N      N rows drawn anywhere, for the reference to compare

The share is reckoned as the sentences stand, with exact fractions.
"""
import random
import struct
import sys
from fractions import Fraction
from math import floor, isqrt, sqrt


def root(n):
    """The largest whole number whose square is at most n."""
    r = isqrt(n)
    assert r * r <= n < (r + 1) * (r + 1)
    return r


def half_chord(radius, x):
    """root(radius² - x²), or 0 off the disc."""
    return root(radius**2 - x**2) if abs(x) <= radius else 0


def share(L1, L2, M):
    """The covered share of the Sun's disc, millionths."""
    r, n, m = floor(Fraction(L1 + L2, 2)), floor(Fraction(L1 - L2, 2)), root(M)
    offsets = [-r + floor(Fraction((2 * i + 1) * r, 1000)) for i in range(1000)]
    suns = [half_chord(r, offset) for offset in offsets]
    moons = [half_chord(n, offset - m) for offset in offsets]
    return floor(Fraction(1_000_000 * sum(map(min, suns, moons)), sum(suns)))


def row(i):
    """L1, L2 and M: near the middle of the eclipse in the first half of the rows, anywhere in the second."""
    distance = i * 1_234_567 % 6_200_001 if i < 150 else i * 11_234_567 % 62_000_001
    return 48_860_000 + i * 5_234_567 % 12_280_001, i * 7_654_321 % 12_280_001 - 6_140_000, distance**2 + i


def draw():
    """L1, L2 and M: anywhere, at an end of a range, near either contact, or central."""
    L1 = random.choice((48_860_000, 61_140_000, random.randint(48_860_000, 61_140_000)))
    L2 = random.choice((-6_140_000, 0, 6_140_000, random.randint(-6_140_000, 6_140_000), random.randint(-20, 20)))
    far = random.choice((0, L1, abs(L2), random.randint(0, L1), random.randint(0, 10**9)))
    return L1, L2, min(10**18, max(0, far + random.randint(-20, 20)) ** 2 + random.randint(-2, 2) ** 2)


def checked(L1, L2, M):
    """The row's share, which is all of the Sun in a total eclipse, and none outside the penumbra."""
    covered = share(L1, L2, M)
    assert 0 <= covered <= 1_000_000
    if L2 < 0 and sqrt(M) < -L2 - 16:
        assert covered == 1_000_000
    if sqrt(M) > L1 + 16:
        assert covered == 0
    return covered


def vectors():
    for numbers in map(row, range(300)):
        yield struct.pack(">qqq", *numbers), " ".join(map(str, (*numbers, checked(*numbers)))) + "\n"


def main():
    count = int(sys.argv[1]) if len(sys.argv) > 1 else 0
    random.seed(1954)
    for L1, L2, M in (draw() for _ in range(count)) if count else map(row, range(300)):
        print(L1, L2, M, checked(L1, L2, M))


if __name__ == "__main__":
    main()
