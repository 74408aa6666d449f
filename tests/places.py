#!/usr/bin/env python3
"""Test vectors of places for the program `rule_vectors`, from the lines `latitude height R P` of the reference.

tests/vectors.py puts them into the program's input and expected output.

Among the lines are the latitudes of table 22 of source document 001, 0 to 90 degrees at height 0, and its example.
After them come stations outside their ranges, whose answer is the word `refused`.
"""
import struct

REFUSED = [
    (90_000_001, 0),
    (-90_000_001, 0),
    (0, 9_001),
    (0, -501),
    (2**31 - 1, 166),
    (-(2**31), 166),
    (55_755_000, 2**31 - 1),
    (55_755_000, -(2**31)),
]


def vectors(given):
    """Those of the reference's lines, and the refused."""
    lines = given.splitlines()
    stations = [tuple(map(int, line.split()))[:2] for line in lines]
    assert all((1_000_000 * degree, 0) in stations for degree in range(91))
    assert "55755000 166 56403879 82301160" in lines
    lines += [f"{latitude} {height} refused" for latitude, height in REFUSED]
    for station, line in zip(stations + REFUSED, lines):
        yield struct.pack(">qq", *station), line + "\n"
